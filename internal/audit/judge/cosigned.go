package judge

import (
	"bytes"
	"crypto/ed25519"
	"crypto/sha256"
	"encoding/base64"
	"encoding/binary"
	"fmt"
	"strconv"
	"strings"
)

// fewCosigned judges a head of a tiled log by a policy of witnesses. The file witnesses has the quorum and, on each
// further line, a verifier key (C2SP tlog-cosignature).
func (e *evidence) fewCosigned() (string, error) {
	second, err := e.head("head-2")
	if err != nil {
		return "", err
	}
	text, lines, _ := strings.Cut(string(e.files["head-2"]), "\n\n")
	quorum, witnesses, count := -1, 0, 0
	for _, line := range strings.Split(string(e.files["witnesses"]), "\n") {
		if number, ok := strings.CutPrefix(line, "# quorum "); ok {
			if quorum, err = strconv.Atoi(number); err != nil {
				return "", notShown("the file witnesses has no quorum")
			}
			continue
		}
		if line == "" {
			continue
		}
		parts := strings.Split(line, "+")
		key, err := base64.StdEncoding.DecodeString(strings.Join(parts[min(2, len(parts)):], "+"))
		if err != nil || len(parts) < 3 || len(key) != 1+ed25519.PublicKeySize || key[0] != 4 {
			return "", notShown("the file witnesses has a line that is not a verifier key: %q", line)
		}
		witnesses++
		if isCosigned(text+"\n", lines, parts[0], key) {
			count++
		}
	}
	if quorum < 0 || count >= quorum {
		return "", notShown("%d witnesses cosigned the head, and the quorum is %d", count, quorum)
	}
	return fmt.Sprintf("of %d witnesses, %d cosigned the log's head of %d leaves, and %d are needed. It must be "+
		"believed that the log gave no more cosignatures", witnesses, count, second.size, quorum), nil
}

// isCosigned reports whether a witness's cosignature is among the lines of a note.
func isCosigned(text, lines, name string, key []byte) bool {
	id := sha256.Sum256(append([]byte(name+"\n"), key...))
	for _, line := range strings.Split(lines, "\n") {
		content, err := base64.StdEncoding.DecodeString(strings.TrimPrefix(line, "— "+name+" "))
		if err != nil || len(content) != 4+8+ed25519.SignatureSize || !bytes.Equal(content[:4], id[:4]) {
			continue
		}
		message := fmt.Sprintf("cosignature/v1\ntime %d\n%s", binary.BigEndian.Uint64(content[4:]), text)
		if ed25519.Verify(key[1:], []byte(message), content[12:]) {
			return true
		}
	}
	return false
}
