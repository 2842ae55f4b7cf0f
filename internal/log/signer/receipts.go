package signer

import (
	"encoding/json"
	"strconv"
)

// A request for a step has a leaf for each timestamp, and a step may have a thousand timestamps. This code writes and
// reads such a line in one pass. encoding/json reads the lines of other programs, which may have another form.

// appendStep appends the request for a step's timestamps, without its line end.
func appendStep(line []byte, step Step) []byte {
	line = strconv.AppendUint(append(line, `{"step":{"first_index":`...), step.First, 10)
	line = appendBase64List(append(line, `,"leaf_inputs":`...), step.Leaves)
	if len(step.Subtrees) > 0 {
		line = appendBase64List(append(line, `,"subtrees":`...), hashBytes(step.Subtrees))
	}
	return append(line, "}}"...)
}

// readStep reads a line that appendStep wrote. ok is false if the line has another form.
func readStep(line []byte) (step Step, ok bool) {
	c := newCursor(line)
	c.expect(`{"step":{"first_index":`)
	step.First = c.number()
	c.expect(`,"leaf_inputs":`)
	c.each(func() { step.Leaves = append(step.Leaves, c.bytes()) })
	var subtrees [][]byte
	if c.skip(`,"subtrees":`) {
		c.each(func() { subtrees = append(subtrees, c.bytes()) })
	}
	c.expect("}}")
	hashes, err := parseHashes(subtrees)
	step.Subtrees = hashes
	return step, c.atEnd() && err == nil
}

// appendSignatures appends the reply that has only signatures.
func appendSignatures(line []byte, signatures [][]byte) []byte {
	return append(appendBase64List(append(line, `{"signatures":`...), signatures), '}')
}

// readReply reads a reply of any form.
func readReply(line []byte) (rep reply, err error) {
	c := newCursor(line)
	c.expect(`{"signatures":`)
	c.each(func() { rep.Signatures = append(rep.Signatures, c.bytes()) })
	if c.expect(`}`); c.atEnd() {
		return rep, nil
	}
	rep = reply{}
	return rep, json.Unmarshal(line, &rep)
}
