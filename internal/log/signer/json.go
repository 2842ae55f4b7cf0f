package signer

import (
	"bytes"
	"encoding/base64"
	"strconv"
)

// Lines about steps are JSON of one fixed form, without spaces and without escapes in base64. This code reads such
// a line once, whereas encoding/json reads it several times. encoding/json reads the lines of every other form.

// appendBase64 appends bytes as a JSON string in base64.
func appendBase64(line, content []byte) []byte {
	line = append(line, '"')
	begin := len(line)
	line = append(line, make([]byte, base64.StdEncoding.EncodedLen(len(content)))...)
	base64.StdEncoding.Encode(line[begin:], content)
	return append(line, '"')
}

// appendBase64List appends a JSON array of byte strings in base64.
func appendBase64List(line []byte, contents [][]byte) []byte {
	line = append(line, '[')
	for i, content := range contents {
		if i > 0 {
			line = append(line, ',')
		}
		line = appendBase64(line, content)
	}
	return append(line, ']')
}

// cursor reads a line from its beginning. After the first mismatch, everything that it reads is missing too.
type cursor struct {
	rest []byte
	bad  bool
}

// newCursor returns a cursor at the beginning of a line. The line's bytes must not change.
func newCursor(line []byte) *cursor { return &cursor{rest: line} }

// skip reports whether a text comes next, and moves past it.
func (c *cursor) skip(text string) bool {
	if c.bad || len(c.rest) < len(text) || string(c.rest[:len(text)]) != text {
		return false
	}
	c.rest = c.rest[len(text):]
	return true
}

// expect moves past a text, which must come next.
func (c *cursor) expect(text string) {
	if !c.skip(text) {
		c.bad = true
	}
}

// number reads a number from 0, in digits.
func (c *cursor) number() uint64 {
	end := 0
	for end < len(c.rest) && c.rest[end] >= '0' && c.rest[end] <= '9' {
		end++
	}
	number, err := strconv.ParseUint(string(c.rest[:end]), 10, 64)
	if c.bad || err != nil || end > 1 && c.rest[0] == '0' {
		c.bad = true
		return 0
	}
	c.rest = c.rest[end:]
	return number
}

// text returns the bytes of a JSON string without escapes.
func (c *cursor) text() []byte {
	c.expect(`"`)
	end := bytes.IndexByte(c.rest, '"')
	if c.bad || end < 0 || bytes.IndexByte(c.rest[:end], '\\') >= 0 {
		c.bad = true
		return nil
	}
	text := c.rest[:end]
	c.rest = c.rest[end+1:]
	return text
}

// bytes reads a JSON string in base64.
func (c *cursor) bytes() []byte {
	text := c.text()
	content := make([]byte, base64.StdEncoding.DecodedLen(len(text)))
	length, err := base64.StdEncoding.Decode(content, text)
	// The decoder ignores line ends, so a text that has one is longer than its bytes need.
	if c.bad || err != nil || base64.StdEncoding.EncodedLen(length) != len(text) {
		c.bad = true
		return nil
	}
	return content[:length:length]
}

// each reads the elements of an array, whose bracket comes next.
func (c *cursor) each(element func()) {
	c.expect("[")
	for first := true; !c.bad && !c.skip("]"); first = false {
		if !first {
			c.expect(",")
		}
		element()
	}
}

// atEnd reports whether everything was read without a mismatch.
func (c *cursor) atEnd() bool { return !c.bad && len(c.rest) == 0 }
