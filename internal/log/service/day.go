package service

import (
	"fmt"
	"strings"
	"time"

	"wagtenib/internal/blob"
	"wagtenib/internal/log/node"
)

// dayFormat is the format of a day.
const dayFormat = "2006-01-02"

// isOn reports whether a time is on a day, anywhere on earth.
func isOn(day, at time.Time) bool {
	since := at.Sub(day)
	return since >= -14*time.Hour && since < 36*time.Hour
}

// NameDay writes the day into the file that nodes of this machine have as Files.NamedDay, if it is that day by the
// machine's clock. On that day, a node starts although no other clock confirms the time and the newest head is old. The
// error is node.ErrConfig if the text is not a day, and node.ErrClock if it is another day by the clock.
func NameDay(path, day string, now time.Time) error {
	named, err := time.Parse(dayFormat, day)
	if err != nil {
		return fmt.Errorf("%w: %q is no day (write it like %s)", node.ErrConfig, day, dayFormat)
	}
	if !isOn(named, now) {
		return fmt.Errorf("%w: this machine's clock says %s (set it right first)", node.ErrClock,
			now.UTC().Format(time.RFC3339))
	}
	// The node may run as another user than the operator who names the day.
	return blob.ShowFile(path, []byte(day+"\n"))
}

// readDay reads the day that NameDay wrote. The error is blob.ErrAbsent if there is none.
func readDay(path string) (time.Time, error) {
	if path == "" {
		return time.Time{}, blob.ErrAbsent
	}
	content, err := blob.KeptFile(path)
	if err != nil {
		return time.Time{}, err
	}
	day, err := time.Parse(dayFormat, strings.TrimSuffix(string(content), "\n"))
	if err != nil {
		return time.Time{}, fmt.Errorf("%s contains no day: %.80q (write it again by ctserve clock)", path, content)
	}
	return day, nil
}
