package blob

import (
	"context"
	"crypto/sha256"
	"encoding/hex"
	"fmt"
	"strings"
)

// LockOf opens one of several locks at an address, which has the form that LockAt takes. Each name has a lock of its
// own: below the path of a folder, below the prefix in etcd, or in PostgreSQL under the log's name with a suffix. A
// name may be any text, since the SHA-256 digest of it is used.
func LockOf(ctx context.Context, address, name string) (Lock, error) {
	own, err := addressOf(address, name)
	if err != nil {
		return nil, err
	}
	return LockAt(ctx, own)
}

// addressOf returns the address of the lock with this name.
func addressOf(address, name string) (string, error) {
	sum := sha256.Sum256([]byte(name))
	own := hex.EncodeToString(sum[:])
	kind, rest, _ := strings.Cut(address, ":")
	if kind == "file" {
		path, err := pathOf("file", rest)
		return "file:" + strings.TrimRight(path, "/") + "/" + own, err
	}
	u, query, err := parseURL(address, kind)
	switch {
	case kind != "etcd" && kind != "postgres" && kind != "postgresql":
		return "", fmt.Errorf("%w: a lock is at file:PATH, etcd://.. or postgres://.., not at %.20q",
			ErrAddress, kind)
	case err != nil:
		return "", err
	case kind == "etcd":
		if strings.Trim(u.Path, "/") == "" {
			return "", fmt.Errorf("%w: etcd needs a prefix after the hosts", ErrAddress)
		}
		u.Path = "/" + strings.Trim(u.Path, "/") + "/" + own
		u.RawPath = ""
		return u.String(), nil
	}
	log, err := takeValue(query, "log")
	if err != nil || log == "" {
		return "", fmt.Errorf("%w: postgres needs a name: ?log=NAME", ErrAddress)
	}
	query.Set("log", log+"/"+own)
	u.RawQuery = query.Encode()
	return u.String(), nil
}
