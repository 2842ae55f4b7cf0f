package alert

import (
	"bytes"
	"context"
	"encoding/json"
	"errors"
	"io"
	"os"
)

// linesPerBatch is the maximum number of alerts that are written at a time.
const linesPerBatch = 500

// Lines writes a line for each alert.
type Lines struct {
	name   string
	writer io.Writer
	format func(Alert) ([]byte, error)
}

// NewTerminal returns an output that writes each alert as a line for people.
func NewTerminal(writer io.Writer) *Lines {
	return &Lines{"terminal", writer, func(a Alert) ([]byte, error) { return []byte(Line(a)), nil }}
}

// NewJSON returns an output of this name that writes each alert as a line of JSON.
func NewJSON(name string, writer io.Writer) *Lines {
	return &Lines{name, writer, func(a Alert) ([]byte, error) { return json.Marshal(a) }}
}

// OpenJSON returns an output that appends each alert as a line of JSON to a file, and the file, which the caller must
// close. If a kill has cut off the last line, OpenJSON ends that line, so that the next alert has its own line.
func OpenJSON(path string) (*Lines, *os.File, error) {
	file, err := os.OpenFile(path, os.O_APPEND|os.O_CREATE|os.O_RDWR, 0o640)
	if err != nil {
		return nil, nil, err
	}
	if err := endLine(file); err != nil {
		return nil, nil, errors.Join(err, file.Close())
	}
	return NewJSON("json "+path, file), file, nil
}

// endLine appends a line end to a regular file that does not end with one.
func endLine(file *os.File) error {
	info, err := file.Stat()
	if err != nil || !info.Mode().IsRegular() || info.Size() == 0 {
		return err
	}
	last := make([]byte, 1)
	if _, err := file.ReadAt(last, info.Size()-1); err != nil || last[0] == '\n' {
		return err
	}
	_, err = file.Write([]byte{'\n'})
	return err
}

// Name returns the name of this output, which no other output has.
func (l *Lines) Name() string { return l.name }

// Batch returns the maximum number of alerts that are written at a time.
func (l *Lines) Batch() int { return linesPerBatch }

// Send writes a line for each alert, and syncs them if they go to a file.
func (l *Lines) Send(_ context.Context, alerts []Alert) (sent, tried int, err error) {
	var text bytes.Buffer
	for i, alert := range alerts {
		line, err := l.format(alert)
		if err != nil {
			return 0, i, err
		}
		text.Write(append(line, '\n'))
	}
	if _, err := l.writer.Write(text.Bytes()); err != nil {
		return 0, len(alerts), err
	}
	if file, ok := l.writer.(*os.File); ok {
		if info, err := file.Stat(); err == nil && info.Mode().IsRegular() {
			if err := file.Sync(); err != nil {
				return 0, len(alerts), err
			}
		}
	}
	return len(alerts), len(alerts), nil
}
