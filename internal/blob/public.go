package blob

import (
	"bytes"
	"compress/gzip"
	"context"
	"encoding/binary"
	"errors"
	"fmt"
	"io"
	"net/http"
	"strings"

	"github.com/minio/minio-go/v7"
)

// The values of Cache-Control, which say how long caches may keep an object.
const (
	cacheForEver   = "public, max-age=31536000, immutable"
	cacheForMinute = "public, max-age=60"
	cacheForSecond = "public, max-age=1"
)

// inGzip is the content coding of data tiles in a bucket that is read without a node (RFC 9110, section 8.4.1.3).
const inGzip = "gzip"

// isDataTile reports whether a name is the name of a data tile (C2SP static-ct-api, "Log Entries").
func isDataTile(name string) bool { return strings.HasPrefix(name, "tile/data/") }

// headersOf returns the values of Content-Type and Cache-Control for an object. Both are empty if readers of the log do
// not read the object.
func headersOf(name string) (contentType, cacheControl string) {
	switch {
	case strings.HasPrefix(name, "tile/") && strings.Contains(name, ".p/"):
		return "application/octet-stream", cacheForMinute
	case strings.HasPrefix(name, "tile/"):
		return "application/octet-stream", cacheForEver
	case strings.HasPrefix(name, "issuer/"):
		return "application/pkix-cert", cacheForEver
	case name == "checkpoint":
		return "text/plain; charset=utf-8", cacheForSecond
	case strings.HasSuffix(name, ".json"):
		return "application/json", cacheForMinute
	}
	return "", ""
}

// optionsOf returns the options of a put, and the content as the bucket keeps it.
func (b *bucket) optionsOf(name string, content []byte) (minio.PutObjectOptions, []byte, error) {
	// The hash of the whole content is signed. Signed chunks are not used, since some engines do not accept them.
	options := minio.PutObjectOptions{DisableContentSha256: true, DisableMultipart: true}
	options.ContentType, options.CacheControl = headersOf(name)
	if !b.public || !isDataTile(name) {
		return options, content, nil
	}
	options.ContentEncoding = inGzip
	var packed bytes.Buffer
	packer := gzip.NewWriter(&packed)
	_, err := packer.Write(content)
	err = errors.Join(err, packer.Close())
	return options, packed.Bytes(), err
}

// Packed holds an object in gzip as it is stored. It is empty if the object is not stored in gzip.
type Packed struct {
	Name string
	Gzip []byte
}

// packedKey marks the context of a Get that also keeps the object as it is stored.
type packedKey struct{}

// WithPacked returns a context for Get. If the object is stored in gzip, Get also keeps it in Packed as it is stored,
// so that it can be sent without compressing it again.
func WithPacked(ctx context.Context) (context.Context, *Packed) {
	packed := &Packed{}
	return context.WithValue(ctx, packedKey{}, packed), packed
}

// errPacked: an object has the Content-Encoding gzip, but its content is not gzip.
var errPacked = errors.New("it is not the gzip that its Content-Encoding says")

// unpack returns the content of an object that is stored in gzip.
func unpack(ctx context.Context, name string, packed []byte, maxBytes int64) ([]byte, error) {
	if len(packed) < 4 {
		return nil, errPacked
	}
	// The length of the content is at the end (RFC 1952, section 2.3.1). No object has more than 4 GiB.
	length := int64(binary.LittleEndian.Uint32(packed[len(packed)-4:]))
	if length > maxBytes {
		return nil, TooLong{length}
	}
	reader, err := gzip.NewReader(bytes.NewReader(packed))
	if err != nil {
		return nil, fmt.Errorf("%w: %w", errPacked, err)
	}
	content := make([]byte, length)
	if _, err := io.ReadFull(reader, content); err != nil {
		return nil, fmt.Errorf("%w: %w", errPacked, err)
	}
	// This read also checks the checksum, which is at the end.
	if n, err := reader.Read(make([]byte, 1)); n != 0 || err != io.EOF {
		return nil, fmt.Errorf("%w: %w", errPacked, err)
	}
	if kept, ok := ctx.Value(packedKey{}).(*Packed); ok {
		kept.Name, kept.Gzip = name, packed
	}
	return content, nil
}

// OpenPublic opens objects at an address as ObjectsAt does, for a log whose clients read the folder or the bucket
// directly.
func OpenPublic(ctx context.Context, address string) (Objects, Current, error) {
	if kind, _, _ := strings.Cut(address, ":"); kind == "s3" {
		at, err := parseS3(address)
		if err != nil {
			return nil, nil, err
		}
		if !at.Conditional {
			return nil, nil, fmt.Errorf("%w: without conditional puts a checkpoint could go back "+
				"(leave conditional=no out, or public-store)", ErrUnsafe)
		}
		b, err := openS3(ctx, at, true)
		if err != nil {
			return nil, nil, err
		}
		return b, b, b.tryMatch(ctx)
	}
	objects, err := ObjectsAt(ctx, address)
	if err != nil {
		return nil, nil, err
	}
	return objects, objects.(*folder), nil
}

// ifMatchKey marks the context of a put that may only replace the object with this ETag.
type ifMatchKey struct{}

// tagged holds a content that Swap put or read, and its ETag.
type tagged struct {
	name, tag string
	content   []byte
}

// Swap implements Current by one put with the ETag of the old content (If-Match). The engine compares the ETag when it
// does the put, so a put that was delayed on its way changes nothing if another one was done before it. Two different
// contents never have the same ETag.
func (b *bucket) Swap(ctx context.Context, name string, old, new []byte) error {
	if err := checkCurrent(name, old, new); err != nil {
		return err
	}
	current := b.last.Load()
	if old == nil || current == nil || current.name != name || !bytes.Equal(current.content, old) {
		var err error
		if current, err = b.getTagged(ctx, name); err != nil {
			return fmt.Errorf("stores: swap %s: %w", name, err)
		}
	}
	return b.swap(ctx, current, old, new)
}

// getTagged reads a content with its ETag. The content is nil if there is no object.
func (b *bucket) getTagged(ctx context.Context, name string) (*tagged, error) {
	content, tag, err := b.get(ctx, name, MaxCurrent)
	if err != nil && !errors.Is(err, ErrAbsent) {
		return nil, err
	}
	return &tagged{name, tag, content}, nil
}

// swap replaces the current content, whose ETag is known, if it is old.
func (b *bucket) swap(ctx context.Context, current *tagged, old, new []byte) error {
	switch {
	case current.content != nil && bytes.Equal(current.content, new):
		return nil
	case (current.content != nil) != (old != nil) || !bytes.Equal(current.content, old):
		return fmt.Errorf("stores: swap %s: %w", current.name, ErrLost)
	case current.content == nil:
		ctx = context.WithValue(ctx, ifAbsentKey{}, true)
	default:
		ctx = context.WithValue(ctx, ifMatchKey{}, `"`+current.tag+`"`)
	}
	tag, err := b.put(ctx, current.name, new)
	if err == nil {
		b.last.Store(&tagged{current.name, tag, bytes.Clone(new)})
		return nil
	}
	b.last.Store(nil)
	if !isRefused(err) && !isNoObject(err) {
		return fmt.Errorf("stores: swap %s: %w", current.name, err)
	}
	// minio-go repeats a put whose answer was lost, and the second one is refused if the first was done.
	now, err := b.getTagged(ctx, current.name)
	if err != nil {
		return fmt.Errorf("stores: swap %s: %w", current.name, err)
	}
	if now.content != nil && bytes.Equal(now.content, new) {
		return nil
	}
	return fmt.Errorf("stores: swap %s: %w", current.name, ErrLost)
}

// tryMatch checks that the engine refuses a put with If-Match of an ETag that the object does not have, and does one
// with the ETag that it has.
func (b *bucket) tryMatch(ctx context.Context) error {
	const name = "conditional-put/swapped"
	if err := b.putText(context.WithValue(ctx, ifAbsentKey{}, true), name, "first"); err != nil && !isRefused(err) {
		return fmt.Errorf("stores: S3: conditional put: %w", err)
	}
	err := b.putText(context.WithValue(ctx, ifMatchKey{}, `"0123456789abcdef0123456789abcdef"`), name, "second")
	if err == nil {
		return fmt.Errorf("%w: a put with If-Match of another ETag is not refused, so a checkpoint could go back "+
			"(leave public-store out, or use an engine with conditional puts)", ErrUnsafe)
	}
	if !isRefused(err) {
		return fmt.Errorf("stores: S3: conditional put: %w", err)
	}
	current, err := b.getTagged(ctx, name)
	if err != nil {
		return fmt.Errorf("stores: S3: conditional put: %w", err)
	}
	if err = b.putText(context.WithValue(ctx, ifMatchKey{}, `"`+current.tag+`"`), name, "first"); err != nil {
		return fmt.Errorf("stores: S3: conditional put: %w", err)
	}
	return nil
}

// putText puts a text, and does not return the ETag.
func (b *bucket) putText(ctx context.Context, name, text string) error {
	_, err := b.put(ctx, name, []byte(text))
	return err
}

// withCondition returns a put's request with the header for the condition that its context holds. It returns other
// requests unchanged.
func withCondition(request *http.Request) *http.Request {
	tag, mustMatch := request.Context().Value(ifMatchKey{}).(string)
	mustBeAbsent := request.Context().Value(ifAbsentKey{}) != nil
	if request.Method != http.MethodPut || !mustMatch && !mustBeAbsent {
		return request
	}
	request = request.Clone(request.Context())
	if mustMatch {
		request.Header.Set("If-Match", tag)
	} else {
		request.Header.Set("If-None-Match", "*")
	}
	return request
}
