// Package eventlog writes the log lines of the programs, one JSON object for each event.
package eventlog

import (
	"bytes"
	"encoding/json"
	"fmt"
	"io"
	"sort"
	"strings"
	"sync"
	"time"
)

// MaxLines is the maximum number of lines of one event in a second. Further ones are counted, and one line reports
// their number. So many lines of one event hide no other event.
const MaxLines = 50

// Lines writes log lines, one JSON object each, with time, level, event and fields. A nil Lines writes nothing.
type Lines struct {
	mutex  sync.Mutex
	writer io.Writer
	now    func() time.Time
	second int64
	// written counts the lines of each event in this second. Events are a few constants of the programs.
	written map[string]int
}

// NewLines writes lines to w.
func NewLines(w io.Writer) *Lines { return &Lines{writer: w, now: time.Now} }

// Info logs normal operation. The fields are keys, each with its value after it.
func (l *Lines) Info(event string, fields ...any) { l.log("info", event, fields) }

// Warn logs something that an operator may look at.
func (l *Lines) Warn(event string, fields ...any) { l.log("warn", event, fields) }

// Error logs something that an operator must look at.
func (l *Lines) Error(event string, fields ...any) { l.log("error", event, fields) }

func (l *Lines) log(level, event string, fields []any) {
	if l == nil {
		return
	}
	l.mutex.Lock()
	defer l.mutex.Unlock()
	now := l.now().UTC()
	if second := now.Unix(); second != l.second {
		written := l.written
		l.second, l.written = second, map[string]int{}
		var dropped []string
		for event, lines := range written {
			if lines > MaxLines {
				dropped = append(dropped, event)
			}
		}
		sort.Strings(dropped)
		for _, event := range dropped {
			l.writer.Write(line(now, "warn", "dropped", []any{"of", event, "lines", written[event] - MaxLines}))
		}
	}
	if level != "error" {
		if l.written[event]++; l.written[event] > MaxLines {
			return
		}
	}
	l.writer.Write(line(now, level, event, fields))
}

func line(now time.Time, level, event string, fields []any) []byte {
	var text bytes.Buffer
	text.WriteByte('{')
	fields = append([]any{"time", now.Format("2006-01-02T15:04:05.000Z"), "level", level, "event", event}, fields...)
	for i := 0; i+1 < len(fields); i += 2 {
		if fields[i+1] == "" {
			continue
		}
		if i > 0 {
			text.WriteByte(',')
		}
		key, _ := json.Marshal(fmt.Sprint(fields[i]))
		value, err := json.Marshal(plain(fields[i+1]))
		if err != nil {
			value, _ = json.Marshal(fmt.Sprint(fields[i+1]))
		}
		text.Write(key)
		text.WriteByte(':')
		text.Write(value)
	}
	text.WriteString("}\n")
	return text.Bytes()
}

// plain makes a text of an error or a duration, for which JSON has no type.
func plain(value any) any {
	switch value := value.(type) {
	case error:
		return value.Error()
	case time.Duration:
		return value.String()
	case fmt.Stringer:
		return value.String()
	}
	return value
}

// Write logs lines of net/http.
func (l *Lines) Write(text []byte) (int, error) {
	l.Warn("http", "text", strings.TrimSpace(string(text)))
	return len(text), nil
}
