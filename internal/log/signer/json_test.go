package signer

import (
	"encoding/json"
	"math"
	"reflect"
	"strings"
	"testing"
)

// TestAppendsBase64 compares the lists that appendBase64List writes with those that encoding/json writes.
func TestAppendsBase64(t *testing.T) {
	for _, contents := range [][][]byte{{}, {{}}, {{1}, {2, 3}, {255, 254, 253}}, {[]byte(strings.Repeat("x", 1000))}} {
		want, err := json.Marshal(contents)
		if got := appendBase64List([]byte("before"), contents); err != nil || string(got) != "before"+string(want) {
			t.Errorf("%s, and %s is expected; %v", got, want, err)
		}
	}
}

// readForm reads an object of one form.
func readForm(line string) (numbers []uint64, texts []string, ok bool) {
	c := newCursor([]byte(line))
	c.expect(`{"of":`)
	c.each(func() {
		c.expect(`{`)
		if c.skip(`"text":`) {
			texts = append(texts, string(c.bytes()))
			c.expect(`,`)
		}
		c.expect(`"number":`)
		numbers = append(numbers, c.number())
		c.expect(`}`)
	})
	c.expect(`}`)
	return numbers, texts, c.atEnd()
}

// TestCursorReadsOneForm: a cursor reads a line of the expected form, and no line of another form.
func TestCursorReadsOneForm(t *testing.T) {
	for line, want := range map[string][]uint64{
		`{"of":[]}`:             nil,
		`{"of":[{"number":0}]}`: {0},
		`{"of":[{"text":"eA==","number":7},{"number":18446744073709551615}]}`: {7, math.MaxUint64},
	} {
		if numbers, texts, ok := readForm(line); !ok || !reflect.DeepEqual(numbers, want) ||
			strings.Contains(line, "eA==") && !reflect.DeepEqual(texts, []string{"x"}) {
			t.Errorf("%s: %v, %q, %v", line, numbers, texts, ok)
		}
	}
	for _, line := range []string{``, `{`, `{"of":[}`, `{"of":[]`, `{"of":[]} `, `{"of":[{"number":07}]}`,
		`{"of":[{"number":-1}]}`, `{"of":[{"number":}]}`,
		`{"of":[{"number":18446744073709551616}]}`, `{"of":[{"number":1}{"number":2}]}`, `{"of":[{"number":1},]}`,
		`{"of":[{"text":"eA=","number":1}]}`,
		`{"of":[{"text":"e\u0041==","number":1}]}`, `{"of":[{"text":"eA==,"number":1}]}`,
		"{\"of\":[{\"text\":\"eA\r==\",\"number\":1}]}", `{"of":[{"text":"eA==`, `{"of":[{"text":7,"number":1}]}`,
		`{"of": []}`} {
		if numbers, texts, ok := readForm(line); ok {
			t.Errorf("%s: %v, %q", line, numbers, texts)
		}
	}
}
