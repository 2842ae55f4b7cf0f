package blob

import (
	"bufio"
	"context"
	"database/sql"
	"errors"
	"fmt"
	"io"
	"net"
	"net/http"
	"net/http/httptest"
	"strings"
	"sync"
	"testing"
	"time"

	"wagtenib/internal/testkit"
)

// serve serves a bucket until the test ends, and returns its address.
func serve(t *testing.T, bucket *testkit.Bucket) S3 {
	t.Helper()
	server := httptest.NewServer(bucket)
	t.Cleanup(server.Close)
	endpoint := strings.TrimPrefix(server.URL, "http://")
	return S3{Endpoint: endpoint, Bucket: testkit.BucketName, Key: "key", Secret: "secret", Region: "us-east-1",
		Conditional: bucket.Conditional}
}

func TestS3RefusesUnfitBuckets(t *testing.T) {
	at := serve(t, testkit.NewBucket(false))
	at.Conditional = true
	if _, err := OpenS3(limited(t), at); !errors.Is(err, ErrUnsafe) {
		t.Errorf("an engine without conditional puts: %v", err)
	}
	at.Conditional, at.Bucket = false, "another"
	if _, err := OpenS3(limited(t), at); !errors.Is(err, ErrAbsent) {
		t.Errorf("a bucket that does not exist: %v", err)
	}
}

// TestS3SurvivesLostResponses: every third response is lost after its request was processed, and every fourth request
// fails. Nevertheless each put is done, and no object gets another content.
func TestS3SurvivesLostResponses(t *testing.T) {
	for _, conditional := range []bool{true, false} {
		fake := testkit.NewBucket(conditional)
		store, err := OpenS3(limited(t), serve(t, fake))
		must(t, err)
		fake.Losing = func(number int) bool { return number%3 == 0 }
		fake.Refusing = func(number int) bool { return number%4 == 0 }
		for i := 1; i <= 5; i++ {
			must(t, store.Put(limited(t), objectName(i), objectContent(i)))
			if err := store.Put(limited(t), objectName(i), []byte("another")); !errors.Is(err, ErrOther) {
				t.Errorf("conditional %t: another content: %v", conditional, err)
			}
			if got, err := store.Get(limited(t), objectName(i), manyBytes); err != nil ||
				string(got) != string(objectContent(i)) {
				t.Errorf("conditional %t: %d bytes, %v", conditional, len(got), err)
			}
		}
	}
}

// TestS3RefusesCutResponse: a response that ends early is not returned as an object.
func TestS3RefusesCutResponse(t *testing.T) {
	server := httptest.NewServer(http.HandlerFunc(func(w http.ResponseWriter, r *http.Request) {
		w.Header().Set("Last-Modified", "Thu, 01 Jan 2026 00:00:00 GMT")
		w.Header().Set("Content-Length", "100")
		w.Write(make([]byte, 50))
	}))
	defer server.Close()
	at := S3{Endpoint: strings.TrimPrefix(server.URL, "http://"), Bucket: testkit.BucketName, Key: "key", Secret: "secret",
		Region: "us-east-1"}
	store, err := OpenS3(limited(t), at)
	must(t, err)
	if got, err := store.Get(limited(t), "a", manyBytes); !errors.Is(err, io.ErrUnexpectedEOF) {
		t.Errorf("%d bytes, %v", len(got), err)
	}
}

// TestS3RefusesResponseWithoutLength: a response in chunks is not returned as an object, whether or not it has more
// than the maximum of bytes.
func TestS3RefusesResponseWithoutLength(t *testing.T) {
	server := httptest.NewServer(http.HandlerFunc(func(w http.ResponseWriter, r *http.Request) {
		w.Header().Set("Last-Modified", "Thu, 01 Jan 2026 00:00:00 GMT")
		w.(http.Flusher).Flush()
		w.Write(make([]byte, 50))
	}))
	defer server.Close()
	at := S3{Endpoint: strings.TrimPrefix(server.URL, "http://"), Bucket: testkit.BucketName, Key: "key", Secret: "secret",
		Region: "us-east-1"}
	store, err := OpenS3(limited(t), at)
	must(t, err)
	for _, maxBytes := range []int64{10, 50, manyBytes} {
		if got, err := store.Get(limited(t), "a", maxBytes); !errors.Is(err, errNoLength) {
			t.Errorf("%d bytes, %v", len(got), err)
		}
	}
}

// TestS3AcknowledgesAtOnce: a gateway that sends the body of a response after the headers were acknowledged does not
// wait for the 40 ms by which Linux delays acknowledgements. The test looks at the quickest of many responses over one
// connection, so that a busy machine does not matter.
func TestS3AcknowledgesAtOnce(t *testing.T) {
	const young, many, delay = 100, 120, 40 * time.Millisecond
	listener, err := net.Listen("tcp", "127.0.0.1:0")
	must(t, err)
	defer listener.Close()
	go func() {
		for {
			connection, err := listener.Accept()
			if err != nil {
				return
			}
			go func() {
				defer connection.Close()
				if connection.(*net.TCPConn).SetNoDelay(false) != nil {
					return
				}
				for from := bufio.NewReader(connection); ; {
					// The response to HEAD, which asks for the bucket, has no body.
					request, err := http.ReadRequest(from)
					if err != nil {
						return
					}
					for _, part := range []string{"HTTP/1.1 200 OK\r\nLast-Modified: Thu, 01 Jan 2026 00:00:00 " +
						"GMT\r\nContent-Length: 7\r\n\r\n", "content"} {
						if _, err := io.WriteString(connection, part); err != nil {
							return
						}
						if request.Method == http.MethodHead {
							break
						}
					}
				}
			}()
		}
	}()
	store, err := OpenS3(limited(t), S3{Endpoint: listener.Addr().String(), Bucket: testkit.BucketName, Key: "key",
		Secret: "secret", Region: "us-east-1"})
	must(t, err)
	minDuration := time.Hour
	for i := 0; i < many; i++ {
		began := time.Now()
		if got, err := store.Get(limited(t), "a", manyBytes); err != nil || string(got) != "content" {
			t.Fatalf("%q, %v", got, err)
		}
		// Linux does not delay acknowledgements on a young connection.
		if duration := time.Since(began); i >= young && duration < minDuration {
			minDuration = duration
		}
	}
	if minDuration >= delay {
		t.Errorf("the quickest of %d responses takes %v", many-young, minDuration)
	}
}

// TestS3ReturnsTheTime: a bucket's time is the Date of a response, which may be a refusal. Without a Date there is an
// error. A server on this machine is reported as such.
func TestS3ReturnsTheTime(t *testing.T) {
	const validDate = "Sun, 06 Nov 1994 08:49:37 GMT"
	var date string
	status := http.StatusOK
	server := httptest.NewServer(http.HandlerFunc(func(w http.ResponseWriter, r *http.Request) {
		w.Header()["Date"] = nil
		if date != "" {
			w.Header().Set("Date", date)
		}
		w.WriteHeader(status)
	}))
	defer server.Close()
	store, err := OpenS3(limited(t), S3{Endpoint: strings.TrimPrefix(server.URL, "http://"), Bucket: testkit.BucketName,
		Key: "key", Secret: "secret", Region: "us-east-1"})
	must(t, err)
	date = validDate
	for _, status = range []int{http.StatusOK, http.StatusForbidden} {
		if at, within, err := store.(Timed).Time(limited(t)); !errors.Is(err, ErrSameMachine) ||
			within != time.Second || at.UTC().Format(http.TimeFormat) != validDate {
			t.Errorf("status %d: %v, %v, %v", status, at, within, err)
		}
	}
	for _, date = range []string{"", "today"} {
		if at, _, err := store.(Timed).Time(limited(t)); err == nil || errors.Is(err, ErrSameMachine) {
			t.Errorf("Date %q: %v", date, at)
		}
	}
	server.Close()
	if at, _, err := store.(Timed).Time(limited(t)); err == nil || errors.Is(err, ErrSameMachine) {
		t.Errorf("no server: %v", at)
	}
}

// TestPostgresReturnsTheTime: the server's time is about the time of this machine, and the server is reported to run on
// it.
func TestPostgresReturnsTheTime(t *testing.T) {
	if postgresURL == "" {
		t.Skip(missingEngine(postgresURL, "postgresql"))
	}
	lock, err := OpenPostgres(limited(t), Postgres{postgresURL, "time"})
	must(t, err)
	defer lock.Close()
	index, err := OpenPostgresIndex(limited(t), Postgres{postgresURL, "time"})
	must(t, err)
	defer index.Close()
	for _, store := range []Timed{lock.(Timed), index.(Timed)} {
		before := time.Now()
		at, within, err := store.Time(limited(t))
		if !errors.Is(err, ErrSameMachine) || at.Before(before.Add(-within)) || at.After(time.Now().Add(within)) {
			t.Errorf("%v, %v, %v; here it is %v", at, within, err, time.Now())
		}
	}
}

// TestPostgresSessions: whatever the server or the address says, a session of a store waits until a commit is on the
// standby's disk, and no timeout ends this wait.
func TestPostgresSessions(t *testing.T) {
	if why := missingEngine(postgresURL, "postgresql"); why != "" {
		t.Skip(why)
	}
	for setting, expected := range map[string]string{"": "on", "synchronous_commit=local": "on",
		"synchronous_commit=remote_write": "on", "synchronous_commit=remote_apply": "remote_apply",
		"statement_timeout=5000": "on"} {
		lock, err := OpenPostgres(limited(t), Postgres{postgresURL + " " + setting, "sessions"})
		must(t, err)
		defer lock.Close()
		index, err := OpenPostgresIndex(limited(t), Postgres{postgresURL + " " + setting, "sessions"})
		must(t, err)
		defer index.Close()
		for _, db := range []*sql.DB{lock.(*inPostgres).db, index.(*indexInPostgres).db} {
			var commit, timeout string
			must(t, db.QueryRowContext(limited(t),
				"select current_setting('synchronous_commit'), current_setting('statement_timeout')").Scan(
				&commit, &timeout))
			if commit != expected || timeout != "0" {
				t.Errorf("%q: synchronous_commit is %s, statement_timeout %s", setting, commit, timeout)
			}
		}
	}
}

func TestRefusesUnsafePostgres(t *testing.T) {
	if why := missingEngine(postgresURL, "postgresql"); why != "" {
		t.Skip(why)
	}
	at := Postgres{postgresURL + " synchronous_commit=off", "suite-" + randomName()}
	if _, err := OpenPostgres(limited(t), at); !errors.Is(err, ErrUnsafe) {
		t.Errorf("synchronous_commit is off: %v", err)
	}
	if _, err := OpenPostgresIndex(limited(t), at); !errors.Is(err, ErrUnsafe) {
		t.Errorf("synchronous_commit is off: %v", err)
	}
}

// TestPostgresWithoutItsStandby lets PostgreSQL wait for a standby that does not exist. A swap whose context ends
// meanwhile returns an error, and its text cannot be read. It is done after the server stops waiting.
func TestPostgresWithoutItsStandby(t *testing.T) {
	if why := missingEngine(postgresURL, "postgresql"); why != "" {
		t.Skip(why)
	}
	at := Postgres{postgresURL, "suite-" + randomName()}
	lock, err := OpenPostgres(limited(t), at)
	must(t, err)
	defer lock.Close()
	must(t, lock.Create(limited(t), "0"))
	server, err := sql.Open("postgres", postgresURL)
	must(t, err)
	defer server.Close()
	set := func(statement string) {
		for _, each := range []string{statement, "select pg_reload_conf()"} {
			_, err := server.ExecContext(limited(t), each)
			must(t, err)
		}
	}
	const reset = "alter system reset synchronous_standby_names"
	defer set(reset)
	set("alter system set synchronous_standby_names = 'nobody'")
	swap := func(from int) error {
		ctx, cancel := context.WithTimeout(context.Background(), 300*time.Millisecond)
		defer cancel()
		return lock.Swap(ctx, fmt.Sprint(from), fmt.Sprint(from+1))
	}
	current := 0
	for waits, all := false, limited(t); !waits; {
		// The server does not apply the setting at once.
		err := swap(current)
		if err == nil {
			current++
			continue
		}
		// On a busy machine a swap may take this long without a standby. Then the test repeats it until it succeeds.
		if must(t, all.Err()); !errors.Is(err, ErrUnknown) && !errors.Is(err, context.DeadlineExceeded) {
			t.Fatal(err)
		}
		must(t, server.QueryRowContext(all,
			"select count(*) > 0 from pg_stat_activity where wait_event = 'SyncRep'").Scan(&waits))
	}
	for i := 0; i < 3; i++ {
		if text, err := lock.Read(limited(t)); err != nil || text != fmt.Sprint(current) {
			t.Errorf("%q is read, %v", text, err)
		}
		if err := swap(current); !errors.Is(err, ErrUnknown) {
			t.Errorf("swap number %d while the server waits: %v", i, err)
		}
	}
	set(reset)
	for since := time.Now(); swap(current) != nil; time.Sleep(10 * time.Millisecond) {
		if time.Since(since) > testkit.Patience {
			t.Fatal("the swap is not done")
		}
	}
	if text, err := lock.Read(limited(t)); err != nil || text != fmt.Sprint(current+1) {
		t.Errorf("%q is read, %v", text, err)
	}
}

// memoryS3 holds a bucket in memory for each place of the suite.
var memoryS3 sync.Map

func openFake(ctx context.Context, place string, conditional bool) (Objects, error) {
	stored, _ := memoryS3.LoadOrStore(place, testkit.NewBucket(conditional))
	server := httptest.NewServer(stored.(*testkit.Bucket))
	store, err := OpenS3(ctx, S3{Endpoint: strings.TrimPrefix(server.URL, "http://"), Bucket: testkit.BucketName, Key: "key",
		Secret: "secret", Region: "us-east-1", Conditional: conditional})
	return closing{store, server}, err
}

// closing holds a store, and a server that is closed with it.
type closing struct {
	Objects
	server *httptest.Server
}

func (c closing) Close() error {
	c.server.Close()
	return nil
}
