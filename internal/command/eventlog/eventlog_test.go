package eventlog

import (
	"bytes"
	"encoding/json"
	"errors"
	"strings"
	"testing"
	"time"
)

func TestLinesAreBounded(t *testing.T) {
	var written bytes.Buffer
	l := NewLines(&written)
	now := time.Unix(1000, 0)
	l.now = func() time.Time { return now }
	for i := 0; i < MaxLines+7; i++ {
		l.Info("x", "quoted \"\n", errors.New("\"\n"), "number", 7, "nothing", "", "none")
	}
	l.Warn("another event")
	for i := 0; i < 2*MaxLines; i++ {
		l.Error("y")
	}
	now = now.Add(time.Second)
	l.Info("z")
	lines := strings.Split(strings.TrimSpace(written.String()), "\n")
	if len(lines) != 3*MaxLines+3 || !strings.Contains(lines[MaxLines], "another event") ||
		!strings.HasSuffix(lines[3*MaxLines+1], `"event":"dropped","of":"x","lines":7}`) {
		t.Errorf("%d lines, at their end %s", len(lines), lines[len(lines)-2:])
	}
	for _, line := range lines {
		if !json.Valid([]byte(line)) {
			t.Errorf("no JSON: %s", line)
		}
	}
	(*Lines)(nil).Info("nothing")
}
