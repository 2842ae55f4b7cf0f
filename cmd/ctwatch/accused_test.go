package main

import (
	"path/filepath"
	"strings"
	"testing"
	"time"

	"wagtenib/internal/testkit"
)

// TestAccusesOnceOfTheSameRoot: a log signs the same wrong root again and again, with a new timestamp each time. This
// causes one alert. Each head that is too old causes its own alert.
func TestAccusesOnceOfTheSameRoot(t *testing.T) {
	const day = 24 * time.Hour
	now := time.Now()
	for _, one := range []struct {
		verdict string
		more    uint64 // the number of entries in addition to the accepted ones
		first   time.Time
		alerts  int
	}{{"fork", 0, now, 1}, {"other root", 2, now, 1}, {"old head", 0, now.Add(-9 * day), 3}} {
		for _, isTiled := range []bool{true, false} {
			log, authority, folder := serveLog(t, "a.example"), testkit.NewAuthority("Test CA 1"), t.TempDir()
			log.add(authority, authority.Issue("other.net"))
			accepted, root := log.Size(), log.Root(log.Size())
			if one.verdict == "old head" {
				log.Publish(accepted, uint64(one.first.Add(-day).UnixMilli()))
			} else {
				root = [32]byte{1}
			}
			arguments := []string{"run", "--once", "--from-start", "--name", "example.org", "--folder",
				filepath.Join(folder, "store"), "--log", log.setting(isTiled)}
			before, _, _ := ctwatch(t, arguments...)
			log.add(authority, authority.Issue("more.net"))
			printed := ""
			for i := range 3 {
				log.PublishRoot(accepted+one.more, uint64(one.first.Add(time.Duration(i+1)*day).UnixMilli()), root)
				status, out, faults := ctwatch(t, arguments...)
				if status != statusAccused {
					t.Errorf("%s: status %d: %s%s", one.verdict, status, out, faults)
				}
				printed += out
			}
			if found := strings.Count(printed, ": "+one.verdict+": "); found != one.alerts {
				t.Errorf("%s: status %d before, and %d alerts: %s", one.verdict, before, found, printed)
			}
		}
	}
}

// TestNamesBothOrigins: if the settings have a wrong origin, the alert names it and the origin of the checkpoint, so
// that the owner sees that the settings are wrong.
func TestNamesBothOrigins(t *testing.T) {
	log, authority := serveLog(t, "a.example"), testkit.NewAuthority("Test CA 1")
	log.add(authority, authority.Issue("other.net"))
	setting := strings.TrimSuffix(log.setting(true), "a.example") + "wrong.example"
	status, out, faults := ctwatch(t, "run", "--once", "--name", "example.org", "--folder", t.TempDir(), "--log", setting)
	if status != statusAccused || !strings.Contains(out, `checkpoint of "a.example", and "wrong.example" is expected`) {
		t.Errorf("status %d: %s%s", status, out, faults)
	}
}
