// Command ctload submits certificates and precertificates of its own CA to the nodes of a log, and measures how long
// they take. Before it begins, it adds its root to a file of roots, runs a command that makes the nodes reload their
// roots, and waits until each node has the root. It writes each SCT as a line that ctaudit fsck checks (judge.Answer). If
// a submission is not answered, ctload sends it to the next node, until it is answered.
//
// It ends after its time or at a signal. The status is 1 if a submission was refused as wrong.
package main

import (
	"context"
	"encoding/base64"
	"encoding/json"
	"flag"
	"fmt"
	"io"
	"math/rand"
	"net/http"
	"os"
	"os/exec"
	"os/signal"
	"runtime"
	"sort"
	"strings"
	"sync"
	"sync/atomic"
	"syscall"
	"time"

	"wagtenib/internal/audit/judge"
	"wagtenib/internal/command/version"
	"wagtenib/internal/testkit"
)

// load submits certificates to the nodes of a log.
type load struct {
	settings
	client  *http.Client
	answers *json.Encoder
	// pace has a token for each submission if a rate is set.
	pace <-chan time.Time
	// prepared has the submissions that were made before the first one was sent.
	prepared chan submission
	results
}

// settings determine what is submitted, to which nodes, and how often.
type settings struct {
	nodes      []string
	authority  *testkit.Authority
	notAfter   time.Time
	maxAnswers int
	repeats    int
}

// results has the answers so far.
type results struct {
	mu        sync.Mutex
	latencies []time.Duration
	retries   map[string]int
	past      []submission
	count     int
}

// submission is a body for add-chain or add-pre-chain, with the fields of its answer that are known in advance.
type submission struct {
	call string
	body []byte
	of   judge.Answer
}

const (
	// maxLatencies is the maximum number of latencies in memory, and maxPast the maximum number of submissions that may
	// be repeated.
	maxLatencies, maxPast = 1 << 20, 1000
	maxReply              = 1 << 20
	requestTimeout        = 30 * time.Second
)

func main() {
	if version.Asked(os.Args[1:]) {
		fmt.Print(version.Line("ctload"))
		return
	}
	if err := run(); err != nil {
		fmt.Fprintln(os.Stderr, "ctload:", err)
		os.Exit(1)
	}
}

func run() error {
	nodes := flag.String("nodes", "http://127.0.0.1:8618", "`addresses` of the log's nodes, with commas between them")
	roots := flag.String("roots", "", "`file` of roots in PEM, to which its own is added")
	reload := flag.String("reload", "",
		"shell `command` that makes the nodes reload their roots, run after the root was written")
	day := flag.String("not-after", "",
		"`day` on which the certificates expire, for example 2027-03-01. The default is in half a year")
	answers := flag.String("answers", "", "`file` to which the answers are appended")
	clients := flag.Int("clients", 8, "number of submissions at once")
	rate := flag.Float64("rate", 0, "maximum number of submissions a second. 0 means no limit")
	long := flag.Duration("for", 0, "`duration` of the run. 0 means until a signal")
	maxAnswers := flag.Int("most", 0, "`number` of answers after which no new submission is sent. 0 means no end")
	repeats := flag.Int("repeats", 5, "`number` of submissions of 100 that are sent again")
	interval := flag.Duration("tell", time.Minute, "`duration` between two lines with metrics")
	ready := flag.Int("ready", 0, "`number` of submissions that are made before the first is sent, so that the time "+
		"to make them is not measured")
	flag.Parse()
	if *ready < 0 {
		return fmt.Errorf("--ready must be 0 or more")
	}
	if flag.NArg() > 0 {
		return fmt.Errorf("unexpected argument %q (see --help)", flag.Arg(0))
	}
	notAfter := time.Now().AddDate(0, 6, 0)
	if *day != "" {
		var err error
		if notAfter, err = time.Parse("2006-01-02", *day); err != nil {
			return err
		}
	}
	authority, err := newRoot(*roots, *reload)
	if err != nil {
		return err
	}
	file, err := os.OpenFile(*answers, os.O_CREATE|os.O_APPEND|os.O_WRONLY, 0o644)
	if err != nil {
		return err
	}
	defer file.Close()
	l := &load{settings: settings{strings.Split(*nodes, ","), authority, notAfter, *maxAnswers, *repeats},
		answers: json.NewEncoder(file), results: results{retries: map[string]int{}},
		client: &http.Client{Timeout: requestTimeout, Transport: &http.Transport{MaxIdleConnsPerHost: *clients}}}
	ctx, stop := signal.NotifyContext(context.Background(), syscall.SIGTERM, syscall.SIGINT)
	defer stop()
	if err := l.waitForRoot(ctx); err != nil {
		return err
	}
	if *rate > 0 {
		l.pace = time.Tick(time.Duration(float64(time.Second) / *rate))
	}
	l.prepare(*ready)
	if *long > 0 {
		timed, cancel := context.WithTimeout(ctx, *long)
		defer cancel()
		ctx = timed
	}
	return l.runClients(ctx, *clients, *interval)
}

// newRoot creates a CA, adds its root to a file, and runs the command that makes the nodes reload their roots.
func newRoot(roots, reload string) (*testkit.Authority, error) {
	authority := testkit.NewAuthority(fmt.Sprintf("An authority of %d", os.Getpid()))
	if err := add(roots, authority.PEM()); err != nil {
		return nil, err
	}
	if reload != "" {
		command := exec.Command("sh", "-c", reload)
		command.Stdout, command.Stderr = os.Stderr, os.Stderr
		if err := command.Run(); err != nil {
			return nil, fmt.Errorf("%s: %w", reload, err)
		}
	}
	return authority, nil
}

// add appends to a file.
func add(path string, content []byte) error {
	file, err := os.OpenFile(path, os.O_CREATE|os.O_APPEND|os.O_WRONLY, 0o644)
	if err != nil {
		return err
	}
	if _, err = file.Write(content); err != nil {
		file.Close()
		return err
	}
	return file.Close()
}

// waitForRoot waits until each node has the CA among its roots.
func (l *load) waitForRoot(ctx context.Context) error {
	root := base64.StdEncoding.EncodeToString(l.authority.Root.Raw)
	for _, node := range l.nodes {
		for {
			reply, err := l.client.Get(node + "/ct/v1/get-roots")
			if err == nil {
				text, err := io.ReadAll(io.LimitReader(reply.Body, maxReply))
				reply.Body.Close()
				if err == nil && strings.Contains(string(text), root) {
					break
				}
			}
			select {
			case <-ctx.Done():
				return ctx.Err()
			case <-time.After(100 * time.Millisecond):
			}
		}
	}
	return nil
}

// runClients runs clients until the context ends or one fails.
func (l *load) runClients(ctx context.Context, clients int, interval time.Duration) error {
	ctx, cancel := context.WithCancel(ctx)
	defer cancel()
	start, failed := time.Now(), make(chan error, clients)
	for i := 0; i < clients; i++ {
		go func(i int) {
			err := l.runClient(ctx, i)
			if err != nil {
				cancel()
			}
			failed <- err
		}(i)
	}
	var first error
	for left := clients; left > 0; {
		select {
		case err := <-failed:
			if left--; first == nil {
				first = err
			}
		case <-time.After(interval):
			fmt.Println(l.metrics(time.Since(start)))
		}
	}
	fmt.Println(l.metrics(time.Since(start)))
	return first
}

// runClient runs one client, which sends one submission after the other.
func (l *load) runClient(ctx context.Context, number int) error {
	random := rand.New(rand.NewSource(time.Now().UnixNano() + int64(number)))
	for ctx.Err() == nil && !l.isDone() {
		if l.pace != nil {
			select {
			case <-l.pace:
			case <-ctx.Done():
				return nil
			}
		}
		s := l.next(random)
		start := time.Now()
		answer, err := l.submit(ctx, s, number)
		if err != nil || answer == nil {
			return err
		}
		if err := l.store(s, *answer, time.Since(start)); err != nil {
			return err
		}
	}
	return nil
}

// isDone reports whether the requested number of submissions was answered.
func (l *load) isDone() bool {
	l.mu.Lock()
	defer l.mu.Unlock()
	return l.maxAnswers > 0 && l.count >= l.maxAnswers
}

// prepare makes this number of submissions.
func (l *load) prepare(count int) {
	l.prepared = make(chan submission, count)
	var number atomic.Int64
	var all sync.WaitGroup
	for range runtime.GOMAXPROCS(0) {
		all.Add(1)
		go func() {
			defer all.Done()
			for at := number.Add(1); at <= int64(count); at = number.Add(1) {
				l.prepared <- l.make(rand.New(rand.NewSource(at)))
			}
		}()
	}
	all.Wait()
}

// next returns a new submission, or repeats one that was answered before.
func (l *load) next(random *rand.Rand) submission {
	l.mu.Lock()
	if len(l.past) > 0 && random.Intn(100) < l.repeats {
		defer l.mu.Unlock()
		return l.past[random.Intn(len(l.past))]
	}
	l.mu.Unlock()
	select {
	case made := <-l.prepared:
		return made
	default:
		return l.make(random)
	}
}

// make makes a new submission. One in three is a precertificate.
func (l *load) make(random *rand.Rand) submission {
	if random.Intn(3) > 0 {
		der := l.authority.Sign(l.authority.Template(l.notAfter))
		return submission{"add-chain", testkit.Submission(der), judge.Answer{Certificate: der}}
	}
	der, tbs := l.authority.SignPair(l.authority.Template(l.notAfter))
	issuer := l.authority.IssuerKeyHash()
	return submission{"add-pre-chain", testkit.Submission(der),
		judge.Answer{IssuerKeyHash: issuer[:], TBSCertificate: tbs}}
}

// submit sends a submission to one node after the other until one answers. It returns nil if the context ends before.
func (l *load) submit(ctx context.Context, s submission, at int) (*judge.Answer, error) {
	for ; ctx.Err() == nil; at++ {
		status, reply, err := l.post(ctx, l.nodes[at%len(l.nodes)]+"/ct/v1/"+s.call, s.body)
		why := "no answer"
		if err == nil {
			if status == http.StatusOK {
				return readAnswer(s, reply)
			}
			if why = fmt.Sprint(status); status < 500 && status != http.StatusTooManyRequests {
				return nil, fmt.Errorf("%s: %d: %s", s.call, status, reply)
			}
		}
		if ctx.Err() == nil {
			l.mu.Lock()
			l.retries[why]++
			l.mu.Unlock()
			time.Sleep(200 * time.Millisecond)
		}
	}
	return nil, nil
}

func (l *load) post(ctx context.Context, address string, body []byte) (int, []byte, error) {
	request, err := http.NewRequestWithContext(ctx, http.MethodPost, address, strings.NewReader(string(body)))
	if err != nil {
		return 0, nil, err
	}
	request.Header.Set("Content-Type", "application/json")
	reply, err := l.client.Do(request)
	if err != nil {
		return 0, nil, err
	}
	defer reply.Body.Close()
	text, err := io.ReadAll(io.LimitReader(reply.Body, maxReply))
	return reply.StatusCode, text, err
}

// readAnswer reads an SCT (RFC 6962, section 4.1).
func readAnswer(s submission, reply []byte) (*judge.Answer, error) {
	var read struct {
		Version    int    `json:"sct_version"`
		ID         []byte `json:"id"`
		Timestamp  uint64 `json:"timestamp"`
		Extensions []byte `json:"extensions"`
		Signature  []byte `json:"signature"`
	}
	if err := json.Unmarshal(reply, &read); err != nil || read.Version != 0 {
		return nil, fmt.Errorf("%s: no timestamp: %s", s.call, reply)
	}
	of := s.of
	of.LogID, of.Timestamp, of.Extensions, of.Signature = read.ID, read.Timestamp, read.Extensions, read.Signature
	return &of, nil
}

// store writes an answer to the file, and stores its latency.
func (l *load) store(s submission, answer judge.Answer, latency time.Duration) error {
	l.mu.Lock()
	defer l.mu.Unlock()
	if l.count++; len(l.past) < maxPast {
		l.past = append(l.past, s)
	} else {
		l.past[l.count%maxPast] = s
	}
	if len(l.latencies) < maxLatencies {
		l.latencies = append(l.latencies, latency)
	} else {
		l.latencies[l.count%maxLatencies] = latency
	}
	return l.answers.Encode(answer)
}

// metrics returns a line with the metrics so far.
func (l *load) metrics(since time.Duration) string {
	l.mu.Lock()
	defer l.mu.Unlock()
	latencies := append([]time.Duration{}, l.latencies...)
	sort.Slice(latencies, func(i, j int) bool { return latencies[i] < latencies[j] })
	percentile := func(part float64) float64 {
		if len(latencies) == 0 {
			return 0
		}
		return latencies[int(part*float64(len(latencies)-1))].Seconds()
	}
	line := fmt.Sprintf("%d answered in %.1f s: %.1f a second; median %.3f s, 99th percentile %.3f s, longest %.3f s",
		l.count, since.Seconds(), float64(l.count)/since.Seconds(), percentile(0.5), percentile(0.99), percentile(1))
	if len(l.retries) > 0 {
		line += fmt.Sprintf("; sent again: %v", l.retries)
	}
	return line
}
