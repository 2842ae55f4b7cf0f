package blob

import (
	"context"
	"errors"
	"fmt"
	"net/url"
	"os"
	"strings"

	"go.etcd.io/etcd/client/v3"
)

// ErrAddress: a text is not an address of a store of this kind. The wrapping error contains the reason, but no part of
// the address that may be secret.
var ErrAddress = errors.New("stores: invalid address")

// The environment variables with the S3 credentials, for an address that contains none.
const (
	environmentKey    = "AWS_ACCESS_KEY_ID"
	environmentSecret = "AWS_SECRET_ACCESS_KEY"
)

// ObjectsAt opens the objects at an address:
//
//	folder:PATH
//	s3://[KEY:SECRET@]HOST[:PORT]/BUCKET[?tls=no][&region=REGION][&conditional=no]
//
// If the address has no KEY and SECRET, the environment variables AWS_ACCESS_KEY_ID and AWS_SECRET_ACCESS_KEY are used.
// An S3 endpoint is called over TLS and with conditional puts, unless the address says no.
func ObjectsAt(ctx context.Context, address string) (Objects, error) {
	kind, rest, _ := strings.Cut(address, ":")
	switch kind {
	case "folder":
		path, err := pathOf("folder", rest)
		if err != nil {
			return nil, err
		}
		return OpenFolder(path)
	case "s3":
		at, err := parseS3(address)
		if err != nil {
			return nil, err
		}
		return OpenS3(ctx, at)
	}
	return nil, fmt.Errorf("%w: objects are at folder:PATH or s3://HOST/BUCKET, not at %.20q", ErrAddress, kind)
}

// CheckObjectsExist returns ErrAbsent if the folder of an address is missing, for example because its disk is not
// mounted. ObjectsAt would create that folder, and the log would continue in the new one. ObjectsAt itself checks that
// a bucket exists.
func CheckObjectsExist(address string) error {
	kind, path, _ := strings.Cut(address, ":")
	if kind != "folder" {
		return nil
	}
	if _, err := os.Stat(path); err != nil {
		return fmt.Errorf("%w: the folder of the objects: %v", ErrAbsent, err)
	}
	return nil
}

// LockAt opens the lock at an address:
//
//	file:PATH                                           a folder with the lock's files
//	etcd://[USER:PASSWORD@]HOST:PORT[,HOST:PORT..]/PREFIX
//	postgres://[USER[:PASSWORD]@]HOST[:PORT]/DATABASE?log=NAME[&..]      other parameters as in libpq
func LockAt(ctx context.Context, address string) (Lock, error) {
	kind, rest, _ := strings.Cut(address, ":")
	switch kind {
	case "file":
		path, err := pathOf("file", rest)
		if err != nil {
			return nil, err
		}
		return OpenFile(path)
	case "etcd":
		at, err := parseEtcd(address)
		if err != nil {
			return nil, err
		}
		return OpenEtcd(at)
	case "postgres", "postgresql":
		at, err := parsePostgres(address)
		if err != nil {
			return nil, err
		}
		return OpenPostgres(ctx, at)
	}
	return nil, fmt.Errorf("%w: a lock is at file:PATH, etcd://.. or postgres://.., not at %.20q", ErrAddress, kind)
}

// IndexAt opens the index at an address. The address is leveldb:PATH, where PATH is a folder, or an address of
// PostgreSQL as in LockAt.
func IndexAt(ctx context.Context, address string) (Index, error) {
	kind, rest, _ := strings.Cut(address, ":")
	switch kind {
	case "leveldb":
		path, err := pathOf("leveldb", rest)
		if err != nil {
			return nil, err
		}
		return OpenLevelDB(ctx, path)
	case "postgres", "postgresql":
		at, err := parsePostgres(address)
		if err != nil {
			return nil, err
		}
		return OpenPostgresIndex(ctx, at)
	}
	return nil, noIndex(kind)
}

// noIndex returns the error for an address of a kind that cannot have an index. Earlier versions of ctserve had the
// index in SQLite.
func noIndex(kind string) error {
	if kind == "sqlite" {
		return fmt.Errorf("%w: an index is no longer in SQLite "+
			"(write leveldb:PATH with another path, and build the index again by ctserve index)", ErrAddress)
	}
	return fmt.Errorf("%w: an index is at leveldb:PATH or postgres://.., not at %.20q", ErrAddress, kind)
}

// CheckObjects returns an error if a text is not an address of objects. It opens nothing.
func CheckObjects(address string) error {
	s3 := func() error { _, err := parseS3(address); return err }
	return checkAddress(address, "objects", map[string]func() error{"folder": nil, "s3": s3})
}

// CheckLock returns an error if a text is not an address of a lock. It opens nothing.
func CheckLock(address string) error {
	postgres := func() error { _, err := parsePostgres(address); return err }
	etcd := func() error { _, err := parseEtcd(address); return err }
	return checkAddress(address, "a lock", map[string]func() error{
		"file": nil, "etcd": etcd, "postgres": postgres, "postgresql": postgres,
	})
}

// CheckIndex returns an error if a text is not an address of an index. It opens nothing.
func CheckIndex(address string) error {
	if kind, _, _ := strings.Cut(address, ":"); kind == "sqlite" {
		return noIndex(kind)
	}
	postgres := func() error { _, err := parsePostgres(address); return err }
	return checkAddress(address, "an index", map[string]func() error{"leveldb": nil, "postgres": postgres,
		"postgresql": postgres})
}

// checkAddress checks an address with the function for its kind. A nil function means that the address is a path.
func checkAddress(address, what string, kinds map[string]func() error) error {
	kind, rest, _ := strings.Cut(address, ":")
	check, known := kinds[kind]
	switch {
	case !known:
		return fmt.Errorf("%w: %s of the kind %.20q", ErrAddress, what, kind)
	case check != nil:
		return check()
	}
	_, err := pathOf(kind, rest)
	return err
}

// pathOf returns the path of an address unchanged, and an error if it is empty. The path is not part of a URL, so a
// percent sign has no meaning.
func pathOf(kind, path string) (string, error) {
	if path == "" {
		return "", fmt.Errorf("%w: %s: without a path", ErrAddress, kind)
	}
	return path, nil
}

// parseURL parses a URL with a host, and its query. It does not wrap the error of url.Parse, which would show a
// password.
func parseURL(address, kind string) (*url.URL, url.Values, error) {
	u, err := url.Parse(address)
	if err != nil || u.Host == "" || u.Fragment != "" {
		return nil, nil, fmt.Errorf("%w: %s:// needs a host and a path after it", ErrAddress, kind)
	}
	query, err := url.ParseQuery(u.RawQuery)
	if err != nil {
		return nil, nil, fmt.Errorf("%w: %s takes no parameters after a question mark", ErrAddress, kind)
	}
	return u, query, nil
}

// takeValue removes a parameter from a query and returns its value, or "" if it is not there. It returns an error if
// the parameter occurs more than once.
func takeValue(query url.Values, name string) (string, error) {
	values := query[name]
	query.Del(name)
	if len(values) > 1 {
		return "", fmt.Errorf("%w: %s occurs twice", ErrAddress, name)
	}
	if len(values) == 0 {
		return "", nil
	}
	return values[0], nil
}

// takeFlag removes a parameter with the value yes or no from a query, and returns whether it is yes. If the parameter
// is not there, it is yes.
func takeFlag(query url.Values, name string) (bool, error) {
	value, err := takeValue(query, name)
	if err == nil && value != "" && value != "yes" && value != "no" {
		err = fmt.Errorf("%w: %s is yes or no", ErrAddress, name)
	}
	return value != "no", err
}

// checkNoneLeft returns an error if a query still has parameters.
func checkNoneLeft(query url.Values, kind string) error {
	for name := range query {
		return fmt.Errorf("%w: %s has no parameter %.40q", ErrAddress, kind, name)
	}
	return nil
}

func parseS3(address string) (at S3, err error) {
	u, query, err := parseURL(address, "s3")
	if err != nil {
		return S3{}, err
	}
	at.Endpoint, at.Bucket = u.Host, strings.Trim(u.Path, "/")
	if at.Bucket == "" || strings.Contains(at.Bucket, "/") {
		return S3{}, fmt.Errorf("%w: s3 needs one bucket after the host", ErrAddress)
	}
	at.Key, at.Secret = os.Getenv(environmentKey), os.Getenv(environmentSecret)
	if u.User != nil {
		at.Key = u.User.Username()
		at.Secret, _ = u.User.Password()
	}
	if at.Key == "" || at.Secret == "" {
		return S3{}, fmt.Errorf("%w: s3 needs a key and a secret, in the address or as %s and %s", ErrAddress, environmentKey,
			environmentSecret)
	}
	if at.Region, err = takeValue(query, "region"); err != nil {
		return S3{}, err
	}
	if at.TLS, err = takeFlag(query, "tls"); err != nil {
		return S3{}, err
	}
	if at.Conditional, err = takeFlag(query, "conditional"); err != nil {
		return S3{}, err
	}
	return at, checkNoneLeft(query, "s3")
}

func parseEtcd(address string) (at Etcd, err error) {
	u, query, err := parseURL(address, "etcd")
	if err != nil {
		return Etcd{}, err
	}
	at.Prefix = strings.Trim(u.Path, "/")
	if at.Prefix == "" {
		return Etcd{}, fmt.Errorf("%w: etcd needs a prefix after the hosts", ErrAddress)
	}
	at.Config = clientv3.Config{Endpoints: strings.Split(u.Host, ",")}
	if u.User != nil {
		at.Config.Username = u.User.Username()
		at.Config.Password, _ = u.User.Password()
	}
	return at, checkNoneLeft(query, "etcd")
}

func parsePostgres(address string) (at Postgres, err error) {
	u, query, err := parseURL(address, "postgres")
	if err != nil {
		return Postgres{}, err
	}
	if at.Log, err = takeValue(query, "log"); err != nil {
		return Postgres{}, err
	}
	if at.Log == "" {
		return Postgres{}, fmt.Errorf("%w: postgres needs a log's name: ?log=NAME", ErrAddress)
	}
	u.RawQuery = query.Encode()
	at.Source = u.String()
	return at, nil
}
