package blob

import (
	"fmt"
	"strings"
)

// The bounds of a name.
const (
	maxName  = 200
	maxParts = 16
)

// checkName returns ErrName if a name does not have the form that Objects states.
func checkName(name string) error {
	if len(name) > maxName {
		return fmt.Errorf("%w: of %d bytes", ErrName, len(name))
	}
	parts := strings.Split(name, "/")
	if len(parts) > maxParts {
		return fmt.Errorf("%w: of %d parts", ErrName, len(parts))
	}
	for _, part := range parts {
		if part == "" || part[0] == '.' || strings.IndexFunc(part, notInNames) >= 0 {
			return fmt.Errorf("%w: %.80q", ErrName, name)
		}
	}
	return nil
}

func notInNames(c rune) bool {
	letter := 'a' <= c && c <= 'z' || 'A' <= c && c <= 'Z'
	return !letter && !('0' <= c && c <= '9') && c != '-' && c != '_' && c != '.'
}

// checkObject checks the name and the length of an object before it is put.
func checkObject(name string, content []byte) error {
	if len(content) > MaxObject {
		return fmt.Errorf("%w: object %.80q of %d bytes", ErrTooLong, name, len(content))
	}
	return checkName(name)
}

// checkPrefix returns ErrName if a text is not a prefix that List takes: whole parts with a slash at the end, or the
// empty text.
func checkPrefix(prefix string) error {
	if prefix == "" {
		return nil
	}
	if !strings.HasSuffix(prefix, "/") {
		return fmt.Errorf("%w: a prefix ends with a slash: %.80q", ErrName, prefix)
	}
	return checkName(strings.TrimSuffix(prefix, "/"))
}

// checkAfter returns ErrName if a text is not a name, the beginning of a name, or empty. List returns the names after
// it.
func checkAfter(text string) error {
	if len(text) > maxName || strings.IndexFunc(strings.ReplaceAll(text, "/", ""), notInNames) >= 0 {
		return fmt.Errorf("%w: %.80q", ErrName, text)
	}
	return nil
}

// boundListed returns the number of names that List may return if it is asked for so many.
func boundListed(maxNames int) int {
	if maxNames < 0 {
		return 0
	}
	if maxNames > MaxListed {
		return MaxListed
	}
	return maxNames
}

func checkText(texts ...string) error {
	for _, text := range texts {
		if len(text) > MaxText {
			return fmt.Errorf("%w: text of %d bytes", ErrTooLong, len(text))
		}
		if text == "" {
			return fmt.Errorf("%w: the text", ErrEmpty)
		}
	}
	return nil
}

func checkNumbers(numbers ...uint64) error {
	for _, number := range numbers {
		if number > MaxNumber {
			return fmt.Errorf("%w: %d", ErrNumber, number)
		}
	}
	return nil
}

// firsts checks rows, and returns the first place of each identity and of each leaf hash, in the order of the list.
func firsts(rows []Row) (identities, leaves []keyed, err error) {
	if len(rows) > MaxRows {
		return nil, nil, fmt.Errorf("%w: %d rows", ErrTooLong, len(rows))
	}
	seenIdentities, seenLeaves := make(map[Identity]bool, len(rows)), make(map[Identity]bool, len(rows))
	for i := range rows {
		r := &rows[i]
		if err := checkNumbers(r.Place.Index, r.Place.Timestamp); err != nil {
			return nil, nil, err
		}
		if !seenIdentities[r.Identity] {
			seenIdentities[r.Identity] = true
			identities = append(identities, keyed{r.Identity, r.Place})
		}
		if !seenLeaves[r.Leaf] {
			seenLeaves[r.Leaf] = true
			leaves = append(leaves, keyed{r.Leaf, r.Place})
		}
	}
	return identities, leaves, nil
}

// keyed is a row of one of the two tables of an index.
type keyed struct {
	key   Identity
	place Place
}

// distinct checks the length of a list of identities, and returns each identity once.
func distinct(identities []Identity) ([]Identity, error) {
	if len(identities) > MaxRows {
		return nil, fmt.Errorf("%w: %d identities", ErrTooLong, len(identities))
	}
	seen := make(map[Identity]bool, len(identities))
	once := make([]Identity, 0, len(identities))
	for _, identity := range identities {
		if !seen[identity] {
			seen[identity] = true
			once = append(once, identity)
		}
	}
	return once, nil
}

// parts divides a list of n elements into parts of at most size elements, and calls each with the bounds of each part.
func parts(n, size int, each func(from, to int) error) error {
	for from := 0; from < n; from += size {
		to := from + size
		if to > n {
			to = n
		}
		if err := each(from, to); err != nil {
			return err
		}
	}
	return nil
}
