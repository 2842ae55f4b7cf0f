package signer

import (
	"bytes"
	"encoding/json"
	"errors"
	"reflect"
	"strings"
	"testing"
)

// someStep returns a step with leaves of several lengths, and a given number of subtrees.
func someStep(subtrees int) Step {
	step := Step{First: 1<<40 - 1, Leaves: [][]byte{[]byte("a leaf"), bytes.Repeat([]byte{255}, 1000), {0}}}
	for i := range subtrees {
		step.Subtrees = append(step.Subtrees, [32]byte{byte(i), 31: 9})
	}
	return step
}

// TestStepsAreWritten: appendStep and appendSignatures write the lines that encoding/json writes, and the lines are
// read back.
func TestStepsAreWritten(t *testing.T) {
	for _, step := range []Step{{Leaves: [][]byte{{}}}, someStep(0), someStep(1), someStep(3)} {
		want, err := json.Marshal(request{Step: &stepLine{step.First, step.Leaves, hashBytes(step.Subtrees)}})
		must(t, err)
		line := appendStep([]byte("before"), step)
		if string(line) != "before"+string(want) {
			t.Errorf("%s, and not %s", line, want)
		}
		read, ok := readStep(line[len("before"):])
		if step.Subtrees == nil {
			step.Subtrees = [][32]byte{}
		}
		if !ok || !reflect.DeepEqual(read, step) {
			t.Errorf("%s is read as %+v, %v", line, read, ok)
		}
	}
	for _, signatures := range [][][]byte{{[]byte("one")}, {[]byte("one"), {2}, {}}} {
		written := appendSignatures(nil, signatures)
		want, err := json.Marshal(reply{Signatures: signatures})
		if err != nil || string(written) != string(want) {
			t.Errorf("%s, and not %s, %v", written, want, err)
		}
		if received, err := readReply(written); err != nil || !reflect.DeepEqual(received.Signatures, signatures) {
			t.Errorf("%s is read as %+v, %v", written, received, err)
		}
	}
}

// TestStepsOfAnotherForm: readStep reads no line of another form, and encoding/json reads replies of another form.
func TestStepsOfAnotherForm(t *testing.T) {
	line := string(appendStep(nil, someStep(2)))
	for _, other := range []string{"", "{}", `{"open":true}`, line[:len(line)-1], line + " ", " " + line,
		strings.Replace(line, `"first_index":1`, `"first_index":"1`, 1), strings.Replace(line, "step", "steps", 1),
		strings.Replace(line, `"first_index":1099511627775,`, "", 1), strings.Replace(line, "subtrees", "roots", 1),
		`{"step":{"leaf_inputs":["eA=="],"first_index":0}}`} {
		if read, ok := readStep([]byte(other)); ok {
			t.Errorf("%s is read as %+v", other, read)
		}
	}
	for text, want := range map[string]reply{
		`{"signatures": ["eA=="]}`:             {Signatures: [][]byte{{'x'}}},
		`{"refused":"older","fault":"of it"}`:  {Refused: "older", Fault: "of it"},
		`{"moved":true,"failed":"so"}`:         {Moved: true, Failed: "so"},
		`{"signatures":["eA=="],"moved":true}`: {Signatures: [][]byte{{'x'}}, Moved: true},
	} {
		if received, err := readReply([]byte(text)); err != nil || !reflect.DeepEqual(received, want) {
			t.Errorf("%s is read as %+v, %v", text, received, err)
		}
	}
	for _, text := range []string{"", "{", `{"refused":7}`, `{"signatures":["eA="]}`} {
		if received, err := readReply([]byte(text)); err == nil {
			t.Errorf("%s is read as %+v", text, received)
		}
	}
}

// TestHashesOfAnotherLength: a request is refused if any hash of a path, or any subtree, has another length than 32
// bytes.
func TestHashesOfAnotherLength(t *testing.T) {
	for _, lengths := range [][]int{{31}, {33}, {64}, {0}, {31, 32}, {33, 32}, {32, 31}, {32, 33}} {
		var path [][]byte
		for _, length := range lengths {
			path = append(path, bytes.Repeat([]byte{7}, length))
		}
		for _, req := range []request{{Step: &stepLine{3, [][]byte{[]byte("a leaf")}, path}},
			{Receipts: []receiptLine{{path, 7, []byte("a leaf")},
				{hashBytes([][32]byte{{1}}), 8, []byte("another")}}}} {
			line, err := json.Marshal(req)
			must(t, err)
			if read, ok := readStep(line); ok {
				t.Errorf("hashes of %d bytes are read as %+v", lengths, read)
				continue
			}
			if _, err := answer(limited(t), nil, line); !errors.Is(err, ErrReply) {
				t.Errorf("hashes of %d bytes: %v", lengths, err)
			}
		}
	}
}
