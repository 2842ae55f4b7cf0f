package loglist_test

import (
	"crypto/sha256"
	"strings"
	"testing"

	"wagtenib/internal/logclient"
	"wagtenib/internal/watch"
	"wagtenib/internal/watch/loglist"
)

// FuzzParse: a list is refused with a reason, or each of its logs has the ID of its key, is there once, and has an
// address that logclient accepts.
func FuzzParse(f *testing.F) {
	good, tiled := newEntry("b", false, "usable"), newEntry("a", true, "qualified")
	f.Add(listOf(f, listTime, []entry{good, good.with("url", "https://user@log.example/?a#b")}, []entry{tiled}))
	f.Add(listOf(f, listTime, []entry{good.with("mmd", 1<<40)}, []entry{tiled.with("submission_url", "://")}))
	f.Add(listOf(f, listTime, nil, []entry{good, tiled.with("key", nil)}))
	f.Add([]byte("{}"))
	f.Fuzz(func(t *testing.T, content []byte) {
		list, err := loglist.Parse(content)
		if (err == nil) != (len(list.Logs) > 0) {
			t.Fatalf("%d logs, and %v", len(list.Logs), err)
		}
		seen := map[watch.LogID]bool{}
		for _, log := range list.Logs {
			if log.ID != sha256.Sum256(log.PublicKey) || seen[log.ID] {
				t.Fatalf("the ID of %q is not of its key, or is there twice", log.Name)
			}
			seen[log.ID] = true
			if log.MaxMergeDelay <= 0 || log.IsTiled() && strings.Contains(log.Origin, "://") {
				t.Fatalf("%+v", log)
			}
			if _, err := logclient.New(log.URL, logclient.Options{}); err != nil {
				t.Fatalf("logclient refuses the address %q: %v", log.URL, err)
			}
		}
		if len(list.InStates(loglist.WatchedStates...)) > len(list.Logs) {
			t.Fatal("more logs are watched than there are")
		}
	})
}
