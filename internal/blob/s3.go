package blob

import (
	"bytes"
	"context"
	"crypto/sha256"
	"encoding/hex"
	"errors"
	"fmt"
	"io"
	"net"
	"net/http"
	"net/http/httptrace"
	"sync/atomic"
	"syscall"
	"time"

	"github.com/minio/minio-go/v7"
	"github.com/minio/minio-go/v7/pkg/credentials"
)

// S3 holds the address of a bucket, and how to call its engine.
type S3 struct {
	// Endpoint is a host with a port. Bucket is the name of a bucket that exists.
	Endpoint, Bucket string
	// Region may be empty.
	Region string
	// Key and Secret are the credentials.
	Key, Secret string
	// TLS is whether the endpoint is called over TLS.
	TLS bool
	// Conditional is whether the engine has conditional puts (If-None-Match: *), so that one of two puts at the same
	// time wins. This is tried when the bucket is opened. If it is false, each Put reads before it puts.
	Conditional bool
}

// bucket keeps objects in a bucket of an engine with the S3 API. The engine must promise that a read or a list after an
// acknowledged put of a new name sees the object, and that acknowledged writes persist. With Ceph, size and min_size of
// the pools must keep an acknowledged write through the failures that are expected.
type bucket struct {
	core        minio.Core
	name        string
	conditional bool
	// public is whether data tiles are put in gzip.
	public bool
	// last is the content that Swap put last. It saves a read before the next swap.
	last atomic.Pointer[tagged]
}

// ifAbsentKey marks the context of a put that may only be done if there is no object.
type ifAbsentKey struct{}

// conditionTransport adds the header for the condition to such puts, because minio-go has no option for it. S3 accepts
// a header that is not signed. It also returns the Date of a response if the request's context has a dateKey.
type conditionTransport struct{ http.RoundTripper }

func (c conditionTransport) RoundTrip(request *http.Request) (*http.Response, error) {
	response, err := c.RoundTripper.RoundTrip(withCondition(request))
	if date, ok := request.Context().Value(dateKey{}).(*string); ok && err == nil {
		*date = response.Header.Get("Date")
	}
	return response, err
}

// dateKey marks the context of a request whose caller needs the Date of the response.
type dateKey struct{}

// Time implements Timed. It returns the Date of a response (RFC 9110, section 6.6.1). The response may be a refusal,
// since the engine refuses a request whose own date is far off.
func (b *bucket) Time(ctx context.Context) (time.Time, time.Duration, error) {
	date, elsewhere := "", false
	ctx = httptrace.WithClientTrace(ctx, &httptrace.ClientTrace{GotConn: func(got httptrace.GotConnInfo) {
		elsewhere = IsElsewhere(got.Conn)
	}})
	_, err := b.core.BucketExists(context.WithValue(ctx, dateKey{}, &date), b.name)
	if at, parseErr := http.ParseTime(date); parseErr == nil {
		if !elsewhere {
			return at, time.Second, ErrSameMachine
		}
		return at, time.Second, nil
	}
	if err == nil {
		err = errors.New("the response has no Date")
	}
	return time.Time{}, 0, fmt.Errorf("stores: S3: time: %w", err)
}

// quickAckConn is a connection that acknowledges at once what it has read. By default, Linux delays acknowledgements by
// 40 ms. A gateway that sends the headers and the body of a response separately waits for them because of Nagle's
// algorithm, which radosgw uses unless its settings contain tcp_nodelay=1.
type quickAckConn struct{ *net.TCPConn }

func (q quickAckConn) Read(into []byte) (int, error) {
	n, err := q.TCPConn.Read(into)
	if raw, rawErr := q.TCPConn.SyscallConn(); rawErr == nil && n > 0 {
		// Errors are ignored, since without this option the connection is only slower.
		_ = raw.Control(func(file uintptr) {
			_ = syscall.SetsockoptInt(int(file), syscall.IPPROTO_TCP, syscall.TCP_QUICKACK, 1)
		})
	}
	return n, err
}

// dialer opens a connection, as net.Dialer does.
type dialer = func(ctx context.Context, network, address string) (net.Conn, error)

// withQuickAck returns a dialer whose TCP connections are quickAckConns.
func withQuickAck(dial dialer) dialer {
	return func(ctx context.Context, network, address string) (net.Conn, error) {
		connection, err := dial(ctx, network, address)
		if tcp, ok := connection.(*net.TCPConn); ok && err == nil {
			return quickAckConn{tcp}, nil
		}
		return connection, err
	}
}

// OpenS3 opens the objects in a bucket. It returns ErrAbsent if there is no such bucket, and ErrUnsafe if the engine
// lacks the conditional puts that at.Conditional states.
func OpenS3(ctx context.Context, at S3) (Objects, error) {
	b, err := openS3(ctx, at, false)
	if b == nil {
		return nil, err
	}
	return b, err
}

func openS3(ctx context.Context, at S3, public bool) (*bucket, error) {
	transport, err := minio.DefaultTransport(at.TLS)
	if err != nil {
		return nil, fmt.Errorf("stores: S3: %w", err)
	}
	transport.ResponseHeaderTimeout = maxSilence
	transport.DialContext = withQuickAck(transport.DialContext)
	client, err := minio.New(at.Endpoint, &minio.Options{
		Creds:        credentials.NewStaticV4(at.Key, at.Secret, ""),
		Secure:       at.TLS,
		Region:       at.Region,
		BucketLookup: minio.BucketLookupPath,
		Transport:    conditionTransport{transport},
	})
	if err != nil {
		return nil, fmt.Errorf("stores: S3: %w", err)
	}
	exists, err := client.BucketExists(ctx, at.Bucket)
	if err != nil {
		return nil, fmt.Errorf("stores: S3: %w", err)
	}
	if !exists {
		return nil, fmt.Errorf("%w: bucket %s", ErrAbsent, at.Bucket)
	}
	b := &bucket{core: minio.Core{Client: client}, name: at.Bucket, conditional: at.Conditional, public: public}
	if at.Conditional {
		return b, b.tryConditions(ctx)
	}
	return b, nil
}

// tryConditions puts two contents under one name, which it uses for nothing else. It returns ErrUnsafe if the engine
// does not refuse the second one.
func (b *bucket) tryConditions(ctx context.Context) error {
	const name = "conditional-put/tried"
	for _, content := range []string{"first", "second"} {
		err := b.putText(context.WithValue(ctx, ifAbsentKey{}, true), name, content)
		if err != nil && !isRefused(err) {
			return fmt.Errorf("stores: S3: conditional put: %w", err)
		}
		if err == nil && content == "second" {
			return fmt.Errorf("%w: the engine does not refuse a conditional put over an object", ErrUnsafe)
		}
	}
	return nil
}

// isRefused reports whether an error is the refusal of a conditional put.
func isRefused(err error) bool {
	return minio.ToErrorResponse(err).StatusCode == http.StatusPreconditionFailed
}

func isNoObject(err error) bool {
	return minio.ToErrorResponse(err).Code == "NoSuchKey"
}

// put puts a content, and returns its ETag.
func (b *bucket) put(ctx context.Context, name string, content []byte) (tag string, err error) {
	options, content, err := b.optionsOf(name, content)
	if err != nil {
		return "", err
	}
	sum := sha256.Sum256(content)
	put, err := b.core.PutObject(ctx, b.name, name, bytes.NewReader(content), int64(len(content)), "",
		hex.EncodeToString(sum[:]), options)
	return put.ETag, err
}

func (b *bucket) Put(ctx context.Context, name string, content []byte) error {
	if err := checkObject(name, content); err != nil {
		return err
	}
	if b.conditional {
		ctx = context.WithValue(ctx, ifAbsentKey{}, true)
	} else if err := b.compare(ctx, name, content); !errors.Is(err, ErrAbsent) {
		return err
	}
	_, err := b.put(ctx, name, content)
	if err != nil && isRefused(err) {
		return b.compare(ctx, name, content)
	}
	if err != nil {
		return fmt.Errorf("stores: put %s: %w", name, err)
	}
	return nil
}

// compare returns ErrOther if the object of a name has another content.
func (b *bucket) compare(ctx context.Context, name string, content []byte) error {
	existing, err := b.Get(ctx, name, int64(len(content)))
	if errors.Is(err, ErrTooLong) || err == nil && !bytes.Equal(existing, content) {
		return fmt.Errorf("stores: put %s: %w", name, ErrOther)
	}
	return err
}

func (b *bucket) Get(ctx context.Context, name string, maxBytes int64) ([]byte, error) {
	if err := checkName(name); err != nil {
		return nil, err
	}
	content, _, err := b.get(ctx, name, maxBytes)
	if err != nil {
		return nil, fmt.Errorf("stores: get %s: %w", name, err)
	}
	return content, nil
}

// errNoLength: a response does not state its length, so it is not known whether all of it was received.
var errNoLength = errors.New("the response has no length")

// get reads a content, which may be stored in gzip, and its ETag.
func (b *bucket) get(ctx context.Context, name string, maxBytes int64) (content []byte, tag string, err error) {
	body, info, header, err := b.core.GetObject(ctx, b.name, name, minio.GetObjectOptions{})
	if err != nil {
		if isNoObject(err) {
			return nil, "", ErrAbsent
		}
		return nil, "", err
	}
	defer body.Close()
	isPacked := header.Get("Content-Encoding") == inGzip
	if info.Size > maxBytes && !isPacked || info.Size > MaxObject {
		return nil, "", TooLong{info.Size}
	}
	if info.Size < 0 {
		return nil, "", errNoLength
	}
	content = make([]byte, info.Size)
	if _, err := io.ReadFull(body, content); err != nil {
		return nil, "", err
	}
	if isPacked {
		content, err = unpack(ctx, name, content, maxBytes)
	}
	return content, info.ETag, err
}

func (b *bucket) List(ctx context.Context, prefix, after string, maxNames int) ([]string, error) {
	if err := checkPrefix(prefix); err != nil {
		return nil, err
	}
	if err := checkAfter(after); err != nil {
		return nil, err
	}
	maxNames = boundListed(maxNames)
	if maxNames == 0 {
		return nil, nil
	}
	listing, cancel := context.WithCancel(ctx)
	defer cancel()
	options := minio.ListObjectsOptions{Prefix: prefix, StartAfter: after, MaxKeys: maxNames, Recursive: true}
	var found []string
	for object := range b.core.Client.ListObjects(listing, b.name, options) {
		if len(found) == maxNames {
			cancel()
			continue
		}
		if object.Err != nil {
			return nil, fmt.Errorf("stores: list %s: %w", prefix, object.Err)
		}
		if checkName(object.Key) == nil {
			found = append(found, object.Key)
		}
	}
	return found, nil
}

func (b *bucket) Delete(ctx context.Context, name string) error {
	if err := checkName(name); err != nil {
		return err
	}
	if err := b.core.RemoveObject(ctx, b.name, name, minio.RemoveObjectOptions{}); err != nil && !isNoObject(err) {
		return fmt.Errorf("stores: delete %s: %w", name, err)
	}
	return nil
}

func (b *bucket) Close() error { return nil }
