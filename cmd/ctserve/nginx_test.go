package main

import (
	"bytes"
	"crypto/tls"
	"fmt"
	"io"
	"net"
	"net/http"
	"os"
	"os/exec"
	"path/filepath"
	"regexp"
	"strings"
	"syscall"
	"testing"
	"time"

	"wagtenib/internal/log/httpd"
	"wagtenib/internal/testkit"
)

// nginxFound returns the path of nginx. It skips the test if nginx is not installed.
func nginxFound(t *testing.T) string {
	t.Helper()
	nginx, err := exec.LookPath("nginx")
	if err != nil {
		if nginx = "/usr/sbin/nginx"; !isThere(nginx) {
			t.Skip("nginx is not installed")
		}
	}
	return nginx
}

// exampleSite returns the example configuration that operators copy. The replacements are pairs of an old and a new
// text. If the example does not have an old text, the test fails.
func exampleSite(t *testing.T, replacements ...string) string {
	t.Helper()
	text, err := os.ReadFile("../../release/nginx/ctserve.nginx.conf")
	testkit.Must(t, err)
	site := string(text)
	for i := 0; i < len(replacements); i += 2 {
		if !strings.Contains(site, replacements[i]) {
			t.Fatalf("ctserve.nginx.conf does not have %q", replacements[i])
		}
		site = strings.ReplaceAll(site, replacements[i], replacements[i+1])
	}
	return site
}

// siteInClear returns the example without TLS. nginx listens at one address, ctserve at another, tiles are cached in a
// folder, and one address may have so many requests at once.
func siteInClear(t *testing.T, address, clients, cache string, atOnce int) string {
	t.Helper()
	return exampleSite(t,
		"    ssl_certificate /etc/ssl/log.example.org.pem;\n", "",
		"    ssl_certificate_key /etc/ssl/log.example.org.key;\n", "",
		"listen 443 ssl http2;", "listen "+address+";",
		"server 127.0.0.1:8618;", "server "+clients+";",
		"proxy_cache_path /var/lib/nginx/ctserve ", "proxy_cache_path "+cache+" ",
		"limit_conn ctserve_clients 64;", fmt.Sprintf("limit_conn ctserve_clients %d;", atOnce))
}

// nginxWith starts nginx with a site, and waits until it accepts connections at an address.
func nginxWith(t *testing.T, site, address string) {
	t.Helper()
	nginxHaving(t, site, address, "events {}")
}

// nginxHaving starts nginx with a site, and with additional lines in the main part of its configuration.
func nginxHaving(t *testing.T, site, address, main string) {
	t.Helper()
	nginx, folder := nginxFound(t), t.TempDir()
	paths := ""
	for _, kind := range []string{"client_body", "proxy", "fastcgi", "uwsgi", "scgi"} {
		paths += fmt.Sprintf("%s_temp_path %s/%s;\n", kind, folder, kind)
	}
	// As in Debian's configuration, nginx logs the addresses of clients unless a site turns that off.
	whole := fmt.Sprintf("daemon off; pid %s/pid; error_log stderr; %s\nhttp { access_log %s/access.log;\n%s%s}\n",
		folder, main, folder, paths, site)
	conf := filepath.Join(folder, "nginx.conf")
	if err := os.WriteFile(conf, []byte(whole), 0o600); err != nil {
		t.Fatal(err)
	}
	if os.Getuid() == 0 {
		// Its workers run as another user.
		if err := os.Chmod(filepath.Dir(folder), 0o711); err != nil {
			t.Fatal(err)
		}
	}
	if output, err := exec.Command(nginx, "-t", "-p", folder, "-c", conf).CombinedOutput(); err != nil {
		t.Fatalf("nginx -t: %s", output)
	}
	var output bytes.Buffer
	command := exec.Command(nginx, "-p", folder, "-c", conf)
	command.Stderr = &output
	if err := command.Start(); err != nil {
		t.Fatal(err)
	}
	t.Cleanup(func() {
		command.Process.Signal(syscall.SIGTERM)
		command.Wait()
		if written, err := os.ReadFile(filepath.Join(folder, "access.log")); err != nil || len(written) > 0 {
			t.Errorf("nginx logs the addresses of clients: %v %.300s", err, written)
		}
	})
	for until := time.Now().Add(testkit.Patience); ; time.Sleep(20 * time.Millisecond) {
		if connection, err := net.Dial("tcp", address); err == nil {
			connection.Close()
			return
		}
		if time.Now().After(until) {
			t.Fatalf("nginx does not answer: %s", output.String())
		}
	}
}

// nginxBefore starts nginx in front of a log with the example without TLS, and returns nginx's address. One address may
// have so many requests at once.
func nginxBefore(t *testing.T, clients string, atOnce int) string {
	t.Helper()
	nginxFound(t)
	address := testkit.Free(t)
	nginxWith(t, siteInClear(t, address, clients, filepath.Join(t.TempDir(), "cache"), atOnce), address)
	return address
}

// TestFolderOfTiles checks that Debian's nginx can create the folder in which the example caches tiles. nginx creates
// only that folder, and none above it.
func TestFolderOfTiles(t *testing.T) {
	nginxFound(t)
	if !isThere("/etc/nginx/nginx.conf") {
		t.Skip("nginx is not that of Debian")
	}
	cache := regexp.MustCompile(`(?m)^proxy_cache_path (\S+) `).FindStringSubmatch(exampleSite(t))
	if cache == nil {
		t.Fatal("the example caches no tiles")
	}
	if above := filepath.Dir(cache[1]); !isThere(above) {
		t.Errorf("the folder %s does not exist", above)
	}
}

// TestExampleHasTheDefaults checks that the example has the numbers of ctserve's defaults, and that nginx closes an
// idle connection well before ctserve does.
func TestExampleHasTheDefaults(t *testing.T) {
	site, limits := exampleSite(t), httpd.DefaultLimits()
	defaults, err := parse([]string{"--roots", "a", "--origin", "b", "--signing-key", "c"}, io.Discard)
	testkit.Must(t, err)
	for _, line := range []string{
		"server " + defaults.listen + ";",
		fmt.Sprintf("limit_conn ctserve_clients %d;", limits.ConnectionsByAddress),
		fmt.Sprintf("client_header_timeout %ds;", int(limits.Headers.Seconds())),
	} {
		if strings.Count(site, line) != 1 {
			t.Errorf("the example must have %q once", line)
		}
	}
	found := regexp.MustCompile(`keepalive_timeout (\S+);`).FindStringSubmatch(site)
	if found == nil {
		t.Fatal("the example has no keepalive_timeout")
	}
	if leaves, err := time.ParseDuration(found[1]); err != nil || leaves > limits.Idle-time.Second ||
		leaves < limits.Idle/2 {
		t.Errorf("nginx closes an idle connection after %s, %v, and ctserve after %v", found[1], err, limits.Idle)
	}
}

// TestExampleOverTLS checks that nginx with the example, except for addresses and folders, answers the log's calls with
// HTTP/2 over TLS.
func TestExampleOverTLS(t *testing.T) {
	nginxFound(t)
	at, address := newPlace(t), testkit.Free(t)
	p := started(t, "20ms", at.arguments("--trusted-proxies", "127.0.0.1")...)
	certificate, key := at.authority.KeyPair()
	at.write("log.example.pem", certificate)
	at.write("log.example.key", key)
	nginxWith(t, exampleSite(t, "/etc/ssl/log.example.org.", at.path("log.example."), "log.example.org", "log.example",
		"listen 443 ", "listen "+address+" ",
		"127.0.0.1:8618", p.clients, "/var/lib/nginx/ctserve", filepath.Join(t.TempDir(), "cache")), address)
	client := &http.Client{Transport: &http.Transport{TLSClientConfig: &tls.Config{InsecureSkipVerify: true},
		ForceAttemptHTTP2: true}}
	for path, status := range map[string]int{"/ct/v1/get-sth": 200, "/ct/v1/get-roots": 200, "/checkpoint": 200,
		"/tile/data/009": 404, "/nothing": 404} {
		request, err := http.NewRequest("GET", "https://"+address+path, nil)
		testkit.Must(t, err)
		request.Host = "log.example"
		answer, err := client.Do(request)
		testkit.Must(t, err)
		answer.Body.Close()
		if answer.StatusCode != status || answer.ProtoMajor != 2 {
			t.Errorf("%s: %d by HTTP/%d, and not %d by HTTP/2", path, answer.StatusCode, answer.ProtoMajor, status)
		}
	}
}

// TestBehindNginx checks that nginx passes submissions and reads on, that it caches tiles but no refusals, and that a
// client is counted by its own address.
func TestBehindNginx(t *testing.T) {
	at := newPlace(t)
	p := started(t, "20ms", at.arguments("--trusted-proxies", "127.0.0.1", "--max-connections-per-address", "1",
		"--log-requests")...)
	address := nginxBefore(t, p.clients, 64)
	if status, text := post(address, at.submission()); status != 200 {
		t.Fatalf("%d %s", status, text)
	}
	// nginx passes a body in chunks on as one with a length.
	request, _ := http.NewRequest("POST", "http://"+address+"/ct/v1/add-chain",
		io.MultiReader(bytes.NewReader(at.submission())))
	if answer, err := http.DefaultClient.Do(request); err != nil || answer.StatusCode != 200 {
		t.Errorf("in chunks: %v, %v", answer, err)
	} else {
		answer.Body.Close()
	}
	if status, text := post(address, make([]byte, 2<<20)); status != 413 {
		t.Errorf("a large body: %d %s", status, text)
	}
	if status, text := post(address, []byte(`{"chain":["AAAA"]}`)); status != 400 ||
		!strings.Contains(text, "no-certificate") {
		t.Errorf("a bad chain: %d %s", status, text)
	}
	tiles := func() int {
		_, text := get(p.operator, "/metrics")
		count := 0
		for _, line := range strings.Split(text, "\n") {
			fmt.Sscanf(line, `ctserve_requests_total{call="tile",status="200"} %d`, &count)
		}
		return count
	}
	for i := 0; i < 3; i++ {
		if status, _ := get(address, "/tile/data/000.p/2"); status != 200 {
			t.Errorf("a tile: %d", status)
		}
		if status, _ := get(address, "/tile/data/009"); status != 404 {
			t.Errorf("no tile: %d", status)
		}
	}
	// Whatever the query and the accepted encodings are, it is the same tile.
	plain := http.Client{Transport: &http.Transport{DisableCompression: true}}
	for i, accepts := range []string{"", "gzip", "br", "gzip, br", "identity"} {
		request, _ := http.NewRequest("GET", fmt.Sprintf("http://%s/tile/data/000.p/2?%d", address, i), nil)
		if accepts != "" {
			request.Header.Set("Accept-Encoding", accepts)
		}
		answer, err := plain.Do(request)
		if err != nil {
			t.Fatal(err)
		}
		answer.Body.Close()
		if packed := answer.Header.Get("Content-Encoding") == "gzip"; answer.StatusCode != 200 ||
			packed != strings.Contains(accepts, "gzip") {
			t.Errorf("to a client that accepts %q: %d %v", accepts, answer.StatusCode, answer.Header)
		}
	}
	// A range of the tile is the same, too.
	_, whole := get(address, "/tile/data/000.p/2")
	request, _ = http.NewRequest("GET", "http://"+address+"/tile/data/000.p/2", nil)
	request.Header.Set("Range", "bytes=7-20")
	if answer, err := plain.Do(request); err != nil {
		t.Error(err)
	} else if part, _ := io.ReadAll(answer.Body); answer.StatusCode != 206 || string(part) != whole[7:21] {
		t.Errorf("a part: %d %q of %q", answer.StatusCode, part, whole)
	}
	if count := tiles(); count != 1 {
		t.Errorf("the log was asked for the tile %d times", count)
	}
	if _, text := get(p.operator, "/metrics"); !strings.Contains(text,
		`ctserve_requests_total{call="tile",status="404"} 3`+"\n") {
		t.Error("the refusal of a missing tile is cached")
	}
	// An address that a client claims is ignored: nginx says 127.0.0.1.
	request, _ = http.NewRequest("GET", "http://"+address+"/ct/v1/get-roots", nil)
	request.Header.Set("X-Forwarded-For", "203.0.113.7")
	answer, err := http.DefaultClient.Do(request)
	if err != nil {
		t.Fatal(err)
	}
	answer.Body.Close()
	for {
		line := p.until("request")
		if line["call"] == "get-roots" {
			if line["address"] != "127.0.0.1" {
				t.Errorf("the client is taken for %v", line["address"])
			}
			break
		}
	}
}

// TestDamagedTileBehindNginx checks that a full tile that was damaged on the disk is answered with 503 through nginx
// too. nginx caches neither that answer nor the damaged tile. After the tile is repaired, nginx serves and caches it,
// whatever happens to the disk later.
func TestDamagedTileBehindNginx(t *testing.T) {
	t.Parallel()
	at := newPlace(t)
	arguments := at.realArguments("--signing-key", at.path("log.pem"), "--trusted-proxies", "127.0.0.1",
		"--scrub-interval", "1h", "--interval", "500ms", "--max-connections-per-address", "500")
	p := started(t, "", append(arguments, "--create")...)
	address := nginxBefore(t, p.clients, 64)
	const atOnce = 257
	bodies, failed := [][]byte{}, make(chan string, atOnce)
	for i := 0; i < atOnce; i++ {
		bodies = append(bodies, at.submission())
	}
	for _, body := range bodies {
		go func(body []byte) {
			status, text := 503, ""
			for until := time.Now().Add(testkit.Patience); status == 503 &&
				time.Now().Before(until); time.Sleep(100 * time.Millisecond) {
				status, text = post(p.clients, body)
			}
			if status != 200 {
				text = fmt.Sprint(status, text)
			} else {
				text = ""
			}
			failed <- text
		}(body)
	}
	for range bodies {
		if text := <-failed; text != "" {
			t.Fatal(text)
		}
	}
	refused := func() (count int) {
		_, text := get(p.operator, "/metrics")
		for _, line := range strings.Split(text, "\n") {
			fmt.Sscanf(line, `ctserve_requests_total{call="tile",status="503"} %d`, &count)
		}
		return count
	}
	asked := 0
	for _, name := range []string{"tile/data/000", "tile/0/000"} {
		right, err := os.ReadFile(at.path("log/objects/" + name))
		if err != nil {
			t.Fatal(err)
		}
		damaged := append([]byte{}, right...)
		damaged[20] ^= 1
		at.write("log/objects/"+name, damaged)
		for try := 0; try < 3; try++ {
			if status, text := get(address, "/"+name); status != 503 || !strings.Contains(text, `"store"`) {
				t.Errorf("%s, damaged: %d %.80q", name, status, text)
			}
		}
		if asked += 3; refused() != asked {
			t.Errorf("%s: the log refused %d times, and was asked %d times", name, refused(), asked)
		}
		at.write("log/objects/"+name, right)
		for _, now := range [][]byte{right, damaged} {
			at.write("log/objects/"+name, now)
			if status, text := get(address, "/"+name); status != 200 || text != string(right) {
				t.Errorf("%s, after it was repaired: %d", name, status)
			}
		}
		if status, _ := get(p.clients, "/"+name); status != 503 {
			t.Errorf("%s, damaged again, from the log itself: %d", name, status)
		}
		asked++
		at.write("log/objects/"+name, right)
	}
}
