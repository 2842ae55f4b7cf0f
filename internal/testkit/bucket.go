package testkit

import (
	"crypto/md5"
	"encoding/hex"
	"encoding/xml"
	"fmt"
	"io"
	"net/http"
	"net/http/httptest"
	"sort"
	"strings"
	"sync"
)

// BucketName is the name of a bucket.
const BucketName = "bucket"

// Object is an object of the bucket: its content and its headers.
type Object struct {
	Content []byte
	// Type, Encoding and Cache are its headers Content-Type, Content-Encoding and Cache-Control.
	Type, Encoding, Cache string
}

// ETag returns the object's ETag, as S3 computes it for a content that is put in one part.
func (o Object) ETag() string {
	sum := md5.Sum(o.Content)
	return `"` + hex.EncodeToString(sum[:]) + `"`
}

// Bucket is a bucket in memory, as an HTTP handler. It supports the part of S3's protocol that the stores need. So the
// stores can be tested on machines without an engine, and with faults that an engine seldom has. Its fields may be set before it is used.
type Bucket struct {
	mu      sync.Mutex
	objects map[string]Object
	// Conditional is whether the bucket obeys If-None-Match, and Matching whether it obeys If-Match.
	Conditional, Matching bool
	// Losing reports whether the response to the request with this number is lost. Refusing reports whether the request
	// is refused. Both may be nil.
	Losing, Refusing func(number int) bool
	// Before is called with each request and its number, before the request is done. After is called after it is done
	// and before the response is sent. Both may be nil.
	Before, After func(number int, r *http.Request)
	requests      int
}

// NewBucket returns an empty bucket. conditional is whether it obeys If-None-Match and If-Match.
func NewBucket(conditional bool) *Bucket {
	return &Bucket{objects: map[string]Object{}, Conditional: conditional, Matching: conditional}
}

// Object returns the object of a name.
func (b *Bucket) Object(name string) (object Object, ok bool) {
	b.mu.Lock()
	defer b.mu.Unlock()
	object, ok = b.objects[name]
	return object, ok
}

// Set sets the object of a name.
func (b *Bucket) Set(name string, object Object) {
	b.mu.Lock()
	defer b.mu.Unlock()
	b.objects[name] = object
}

// fault answers with an error of S3's protocol.
func fault(w http.ResponseWriter, status int, code string) {
	w.WriteHeader(status)
	fmt.Fprintf(w, "<Error><Code>%s</Code></Error>", code)
}

// ServeHTTP answers a request of S3's protocol.
func (b *Bucket) ServeHTTP(w http.ResponseWriter, r *http.Request) {
	// The body is read first, so that the bucket waits for no client while it is locked.
	body, err := io.ReadAll(r.Body)
	if err != nil {
		fault(w, http.StatusBadRequest, "IncompleteBody")
		return
	}
	b.mu.Lock()
	b.requests++
	number := b.requests
	b.mu.Unlock()
	if b.Before != nil {
		b.Before(number, r)
	}
	if b.Refusing != nil && b.Refusing(number) {
		fault(w, http.StatusServiceUnavailable, "SlowDown")
		return
	}
	response := httptest.NewRecorder()
	b.mu.Lock()
	b.answer(response, r, body)
	b.mu.Unlock()
	if b.After != nil {
		b.After(number, r)
	}
	if b.Losing != nil && b.Losing(number) {
		panic(http.ErrAbortHandler)
	}
	for name, values := range response.Header() {
		w.Header()[name] = values
	}
	w.WriteHeader(response.Code)
	// This fails if the client has closed the connection.
	_, _ = w.Write(response.Body.Bytes())
}

// answer does a request and writes the response. The caller must hold the mutex.
func (b *Bucket) answer(w http.ResponseWriter, r *http.Request, body []byte) {
	bucket, name, _ := strings.Cut(strings.TrimPrefix(r.URL.Path, "/"), "/")
	object, exists := b.objects[name]
	switch {
	case bucket != BucketName:
		fault(w, http.StatusNotFound, "NoSuchBucket")
	case name == "":
		b.list(w, r)
	case r.Method == http.MethodPut:
		b.put(w, r, name, body)
	case r.Method == http.MethodDelete:
		delete(b.objects, name)
		w.WriteHeader(http.StatusNoContent)
	case !exists:
		fault(w, http.StatusNotFound, "NoSuchKey")
	default:
		for header, value := range map[string]string{
			"Last-Modified": "Thu, 01 Jan 2026 00:00:00 GMT", "ETag": object.ETag(),
			"Content-Type": object.Type, "Content-Encoding": object.Encoding, "Cache-Control": object.Cache,
			"Content-Length": fmt.Sprint(len(object.Content)),
		} {
			if value != "" {
				w.Header().Set(header, value)
			}
		}
		// Writing to a recorder never fails.
		_, _ = w.Write(object.Content)
	}
}

// put does a PUT if its conditions hold, and writes the response.
func (b *Bucket) put(w http.ResponseWriter, r *http.Request, name string, body []byte) {
	object, exists := b.objects[name]
	match := r.Header.Get("If-Match")
	mustMatch := b.Matching && match != ""
	switch {
	case exists && b.Conditional && r.Header.Get("If-None-Match") == "*":
		fault(w, http.StatusPreconditionFailed, "PreconditionFailed")
	case mustMatch && !exists:
		fault(w, http.StatusNotFound, "NoSuchKey")
	case mustMatch && match != object.ETag():
		fault(w, http.StatusPreconditionFailed, "PreconditionFailed")
	default:
		put := Object{body, r.Header.Get("Content-Type"), r.Header.Get("Content-Encoding"), r.Header.Get("Cache-Control")}
		b.objects[name] = put
		w.Header().Set("ETag", put.ETag())
	}
}

// list answers ListObjectsV2, and requests that ask whether the bucket exists.
func (b *Bucket) list(w http.ResponseWriter, r *http.Request) {
	query := r.URL.Query()
	after := query.Get("start-after")
	if token := query.Get("continuation-token"); token > after {
		after = token
	}
	var names []string
	for name := range b.objects {
		if strings.HasPrefix(name, query.Get("prefix")) && name > after {
			names = append(names, name)
		}
	}
	sort.Strings(names)
	maxKeys := 1000
	if text := query.Get("max-keys"); text != "" {
		if _, err := fmt.Sscan(text, &maxKeys); err != nil {
			fault(w, http.StatusBadRequest, "InvalidArgument")
			return
		}
	}
	type key struct{ Key, LastModified string }
	answer := struct {
		XMLName               xml.Name `xml:"ListBucketResult"`
		Contents              []key
		IsTruncated           bool
		NextContinuationToken string
	}{IsTruncated: len(names) > maxKeys}
	if answer.IsTruncated {
		names = names[:maxKeys]
		answer.NextContinuationToken = names[maxKeys-1]
	}
	for _, name := range names {
		answer.Contents = append(answer.Contents, key{name, "2026-01-01T00:00:00Z"})
	}
	if err := xml.NewEncoder(w).Encode(answer); err != nil {
		panic(err)
	}
}
