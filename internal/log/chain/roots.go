package chain

import (
	"bytes"
	"crypto/sha256"
	"crypto/x509"
	"encoding/hex"
	"encoding/pem"
	"errors"
	"fmt"
	"io"
	"os"
	"path/filepath"
	"slices"
	"strings"
)

// The bounds of roots.
const (
	// MaxRoots is the maximum number of roots of a log.
	MaxRoots = 4096
	// MaxRootBytes is the maximum number of bytes of a file of roots.
	MaxRootBytes = 16 << 20
)

// Roots holds the root certificates to which a log accepts chains. It does not change.
type Roots struct {
	certificates []*x509.Certificate
	byHash       map[[32]byte]bool
	bySubject    map[string][]*x509.Certificate
	leftOut      []LeftOut
}

// LeftOut is a certificate that is not accepted as a root, and the reason.
type LeftOut struct {
	// From is the file that contains it. Number is its number among the file's certificates, from 1. Name is its name
	// in the file, or empty.
	From   string
	Number int
	Name   string
	// Fingerprint is SHA-256 over its bytes.
	Fingerprint [32]byte
	Why         error
}

func (l LeftOut) String() string {
	return fmt.Sprintf("%s, certificate %d (%ssha256 %x): %v", l.From, l.Number, l.Name, l.Fingerprint, l.Why)
}

// errRemoved: the list of RootFiles.Without contains the fingerprint of the root.
var errRemoved = errors.New("the list of removed roots contains its fingerprint")

// NoRoots returns the roots of a log that accepts no submissions: none.
func NoRoots() *Roots {
	return &Roots{byHash: map[[32]byte]bool{}, bySubject: map[string][]*x509.Certificate{}}
}

// RootFiles holds the paths of a log's roots, and which of the roots are accepted.
type RootFiles struct {
	// Paths are PEM files, files of CCADB (.csv with a column of PEM certificates), and folders with such files (.pem,
	// .crt and .csv). The roots are the certificates in all of them. If a file of CCADB has columns of trust bits or of
	// statuses, only those roots count that are for TLS servers and included.
	Paths []string
	// Without is a file with the SHA-256 fingerprint of a root in hexadecimal in each line, and comments after #. These
	// roots are not accepted. An empty path means no file.
	Without string
	// AnyPurpose is whether roots of a table of CCADB are also accepted if they are not for TLS servers.
	AnyPurpose bool
}

// Load reads the roots of all files. A certificate that crypto/x509 cannot read is left out, and LeftOut returns it. A
// file that cannot be read, that is cut off, or that contains no certificates or anything except certificates is an
// error, since otherwise a log could lose roots without notice. It is also an error if there is no root at all.
func (f RootFiles) Load() (*Roots, error) {
	removed, err := f.removed()
	if err != nil {
		return nil, err
	}
	roots := NoRoots()
	for _, path := range f.Paths {
		files, err := filesAt(path)
		if err != nil {
			return nil, err
		}
		for _, file := range files {
			if err := roots.read(file, f, removed); err != nil {
				return nil, err
			}
		}
	}
	if len(roots.certificates) == 0 {
		return nil, fmt.Errorf("chains: roots: none")
	}
	return roots, nil
}

// removed returns the fingerprints of the roots that are not accepted.
func (f RootFiles) removed() (map[[32]byte]bool, error) {
	if f.Without == "" {
		return nil, nil
	}
	text, err := readBounded(f.Without)
	if err != nil {
		return nil, err
	}
	found := map[[32]byte]bool{}
	for number, line := range strings.Split(string(text), "\n") {
		line, _, _ = strings.Cut(line, "#")
		line = strings.ToLower(strings.ReplaceAll(strings.TrimSpace(line), ":", ""))
		if line == "" {
			continue
		}
		hash, err := hex.DecodeString(line)
		if err != nil || len(hash) != 32 {
			return nil, fmt.Errorf("chains: roots: %s, line %d: it is not a SHA-256 fingerprint in hexadecimal",
				f.Without, number+1)
		}
		found[*(*[32]byte)(hash)] = true
	}
	return found, nil
}

// filesAt returns the files at a path. That is the path itself or, if it is a folder, the files in it whose names say
// that they may contain roots.
func filesAt(path string) ([]string, error) {
	info, err := os.Stat(path)
	if err != nil {
		return nil, fmt.Errorf("chains: roots: %w", err)
	}
	if !info.IsDir() {
		return []string{path}, nil
	}
	entries, err := os.ReadDir(path)
	if err != nil {
		return nil, fmt.Errorf("chains: roots: %w", err)
	}
	var files []string
	for _, entry := range entries {
		switch filepath.Ext(entry.Name()) {
		case ".pem", ".crt", ".csv":
			files = append(files, filepath.Join(path, entry.Name()))
		}
	}
	if len(files) == 0 {
		return nil, fmt.Errorf("chains: roots: the folder %s has no file .pem, .crt or .csv", path)
	}
	return files, nil
}

func readBounded(path string) ([]byte, error) {
	file, err := os.Open(path)
	if err != nil {
		return nil, fmt.Errorf("chains: roots: %w", err)
	}
	defer file.Close()
	text, err := io.ReadAll(io.LimitReader(file, MaxRootBytes+1))
	if err != nil {
		return nil, fmt.Errorf("chains: roots: %w", err)
	}
	if len(text) > MaxRootBytes {
		return nil, fmt.Errorf("chains: roots: %s has more than %d bytes", path, MaxRootBytes)
	}
	return text, nil
}

// read adds the roots of one file.
func (r *Roots) read(path string, f RootFiles, removed map[[32]byte]bool) error {
	text, err := readBounded(path)
	if err != nil {
		return err
	}
	table := &Table{Rows: []TableRow{{PEM: text}}}
	if filepath.Ext(path) == ".csv" {
		if table, err = ReadTable(text); err != nil {
			return fmt.Errorf("chains: roots: %s: %w", path, err)
		}
	}
	number := 0
	for _, row := range table.Rows {
		blocks, err := certificatesIn(row.PEM)
		if err != nil {
			return fmt.Errorf("chains: roots: %s: %w", path, err)
		}
		for _, der := range blocks {
			number++
			source := LeftOut{From: path, Number: number, Why: row.Why}
			if row.Name != "" {
				source.Name = fmt.Sprintf("%.80q, ", row.Name)
			}
			if errors.Is(row.Why, ErrPurpose) && f.AnyPurpose {
				source.Why = nil
			}
			if err := r.addOrLeaveOut(der, removed, source); err != nil {
				return err
			}
		}
	}
	if number == 0 {
		return fmt.Errorf("chains: roots: %s has none", path)
	}
	return nil
}

// addOrLeaveOut adds a root, or records why it is left out. source says where the root is, and holds the reason if it
// is known already that the root must be left out.
func (r *Roots) addOrLeaveOut(der []byte, removed map[[32]byte]bool, source LeftOut) error {
	source.Fingerprint = sha256.Sum256(der)
	if source.Why != nil {
		r.leftOut = append(r.leftOut, source)
		return nil
	}
	if removed[source.Fingerprint] {
		source.Why = errRemoved
		r.leftOut = append(r.leftOut, source)
		return nil
	}
	certificate, err := x509.ParseCertificate(der)
	if err != nil {
		source.Why = err
		r.leftOut = append(r.leftOut, source)
		return nil
	}
	r.add(certificate)
	if len(r.certificates) > MaxRoots {
		return fmt.Errorf("chains: roots: more than %d", MaxRoots)
	}
	return nil
}

// certificatesIn returns the bytes of the certificates in a PEM text, which may have any text between them. A block of
// another kind, or one that is cut off, is an error.
func certificatesIn(text []byte) ([][]byte, error) {
	var found [][]byte
	rest, number := text, 1
	for ; ; number++ {
		var block *pem.Block
		if block, rest = pem.Decode(rest); block == nil {
			break
		}
		if block.Type != "CERTIFICATE" {
			return nil, fmt.Errorf("block %d is a %.40q, and must be a CERTIFICATE", number, block.Type)
		}
		found = append(found, block.Bytes)
	}
	// pem.Decode skips everything that it cannot read.
	if begun := bytes.Count(text, []byte("-----BEGIN ")); begun != number-1 {
		return nil, fmt.Errorf("%d blocks begin, and only %d can be read", begun, number-1)
	}
	return found, nil
}

// ParseRoots reads roots in PEM. It accepts one or more blocks CERTIFICATE, each counted once, and any text between
// them. Another kind of block, a block that is not a certificate, and a text without roots are errors.
func ParseRoots(text []byte) (*Roots, error) {
	if len(text) > MaxRootBytes {
		return nil, fmt.Errorf("chains: roots: more than %d bytes", MaxRootBytes)
	}
	blocks, err := certificatesIn(text)
	if err != nil {
		return nil, fmt.Errorf("chains: roots: %w", err)
	}
	roots := NoRoots()
	for at, der := range blocks {
		if err := roots.addOrLeaveOut(der, nil, LeftOut{Number: at + 1}); err != nil {
			return nil, err
		}
	}
	if len(roots.leftOut) > 0 {
		return nil, fmt.Errorf("chains: roots: block %d: %w", roots.leftOut[0].Number, roots.leftOut[0].Why)
	}
	if len(roots.certificates) == 0 {
		return nil, fmt.Errorf("chains: roots: none")
	}
	return roots, nil
}

// LeftOut returns the certificates of the files that are not among the roots, in the order of the files.
func (r *Roots) LeftOut() []LeftOut { return append([]LeftOut{}, r.leftOut...) }

// countChanges returns how many roots were added to the roots before, and how many were removed from them.
func (r *Roots) countChanges(before *Roots) (added, removed int) {
	for hash := range r.byHash {
		if !before.byHash[hash] {
			added++
		}
	}
	for hash := range before.byHash {
		if !r.byHash[hash] {
			removed++
		}
	}
	return added, removed
}

func (r *Roots) add(certificate *x509.Certificate) {
	hash := sha256.Sum256(certificate.Raw)
	if r.byHash[hash] {
		return
	}
	r.byHash[hash] = true
	r.certificates = append(r.certificates, certificate)
	subject := string(certificate.RawSubject)
	r.bySubject[subject] = append(r.bySubject[subject], certificate)
}

// contains reports whether a certificate is a root. It takes the subject's name and the certificate, both in DER.
func (r *Roots) contains(name, der []byte) bool {
	return slices.ContainsFunc(r.withSubject(name), func(root *x509.Certificate) bool {
		return bytes.Equal(root.Raw, der)
	})
}

// withSubject returns the roots with this subject, whose name is in DER.
func (r *Roots) withSubject(name []byte) []*x509.Certificate { return r.bySubject[string(name)] }

// Certificates returns the roots in DER, in the order of the files. This is the answer to get-roots.
func (r *Roots) Certificates() [][]byte {
	certificates := make([][]byte, len(r.certificates))
	for i, certificate := range r.certificates {
		certificates[i] = certificate.Raw
	}
	return certificates
}
