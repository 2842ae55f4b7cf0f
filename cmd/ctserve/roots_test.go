package main

import (
	"crypto/sha256"
	"encoding/pem"
	"fmt"
	"net/http"
	"net/http/httptest"
	"os"
	"strings"
	"testing"

	"wagtenib/internal/testkit"
)

// tableOf returns a table of CCADB with a root for TLS servers and a root for mail.
func tableOf(t *testing.T, servers, mail *place) string {
	t.Helper()
	text := "Certificate Name,SHA-256 Fingerprint,Trust Bits,Mozilla Status,X.509 Certificate (PEM)\n"
	for _, each := range []struct {
		of         *place
		name, bits string
	}{{servers, "A root of servers", "Websites"}, {mail, "A root of mail", "Email"}} {
		certificate := each.of.authority.PEM()
		block, _ := pem.Decode(certificate)
		text += fmt.Sprintf("%s,%X,%s,Included,\"'%s'\"\n", each.name, sha256.Sum256(block.Bytes), each.bits, certificate)
	}
	return text
}

// TestRootsOfCCADB checks that ctserve roots fetches a table, prints what changed, and ends with status 1 if too many
// roots would be removed. The setting roots uses the same rows of a table.
func TestRootsOfCCADB(t *testing.T) {
	t.Parallel()
	servers, mail := newPlace(t), newPlace(t)
	table := tableOf(t, servers, mail)
	server := httptest.NewTLSServer(http.HandlerFunc(func(w http.ResponseWriter, r *http.Request) {
		if r.URL.Path != "/all.csv" {
			http.NotFound(w, r)
			return
		}
		fmt.Fprint(w, table)
	}))
	defer server.Close()
	servers.write("ca.pem", pem.EncodeToMemory(&pem.Block{Type: "CERTIFICATE", Bytes: server.Certificate().Raw}))
	into := t.TempDir()
	update := func(arguments ...string) (int, string) {
		var output strings.Builder
		status := runCommand("roots", append([]string{"--into", into, "--ca-file", servers.path("ca.pem")}, arguments...),
			&output, &output)
		return status, output.String()
	}
	status, output := update(server.URL + "/all.csv")
	if status != 0 || !strings.Contains(output, "ccadb.pem: 1 roots, 1 added, 0 removed\n") ||
		!strings.Contains(output, " A root of servers\nleft out: 1 not for TLS servers, 0 not included\n") {
		t.Errorf("%d %s", status, output)
	}
	content, err := os.ReadFile(into + "/ccadb.pem")
	testkit.Must(t, err)
	if !strings.Contains(string(content), string(servers.authority.PEM())) ||
		strings.Contains(string(content), string(mail.authority.PEM())) {
		t.Errorf("%s", content)
	}
	other := strings.Replace(strings.Replace(table, "Websites", "Mail", 1), "Email", "Websites", 1)
	servers.write("other.csv", []byte(other))
	for arguments, expected := range map[string]int{server.URL + "/none.csv": 1,
		"http" + strings.TrimPrefix(server.URL, "https") + "/all.csv": 1, servers.path("none.csv"): 1,
		servers.path("other.csv"): 1, "": 2, "--max-fall NaN " + servers.path("none.csv"): 2,
		"--max-fall -1 " + servers.path("none.csv"): 2, "--max-fall 101 " + servers.path("none.csv"): 2} {
		if status, output := update(strings.Fields(arguments)...); status != expected {
			t.Errorf("%s: %d %s", arguments, status, output)
		}
	}
	if after, err := os.ReadFile(into + "/ccadb.pem"); err != nil || string(after) != string(content) {
		t.Errorf("the file was changed: %v", err)
	}
	// The setting roots can name the table itself.
	servers.write("all.csv", []byte(table))
	for arguments, expected := range map[string]string{"": "1 roots", "--any-purpose": "2 roots"} {
		var output strings.Builder
		status := runCommand("check", append(strings.Fields(arguments), "--origin", "log.example/test", "--signing-key",
			servers.path("log.pem"), "--roots", servers.path("all.csv")), &output, &output)
		if status != 0 || !strings.Contains(output.String(), "roots            "+expected+"\n") {
			t.Errorf("%s: %d %s", arguments, status, output.String())
		}
	}
}
