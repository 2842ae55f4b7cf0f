package logclient_test

import (
	"errors"
	"net/http"
	"sync/atomic"
	"testing"

	"wagtenib/internal/logclient"
	"wagtenib/internal/testkit"
)

// TestLimitsAttempts checks that a server that fails is asked exactly as often as the limit permits.
func TestLimitsAttempts(t *testing.T) {
	for _, attempts := range []int{1, 3} {
		var requests atomic.Int64
		c := client(t, http.HandlerFunc(func(w http.ResponseWriter, _ *http.Request) {
			requests.Add(1)
			w.WriteHeader(http.StatusInternalServerError)
		}), logclient.Options{Clock: newClock(), Limits: logclient.Limits{Attempts: attempts}})
		if _, err := c.STH(testkit.Limited(t, testkit.Longest)); !errors.Is(err, logclient.ErrStatus) {
			t.Error(err)
		}
		if requests.Load() != int64(attempts) {
			t.Errorf("%d requests, expected %d", requests.Load(), attempts)
		}
	}
}
