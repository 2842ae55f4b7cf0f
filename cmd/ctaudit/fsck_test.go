package main

import (
	"bufio"
	"bytes"
	"crypto/ecdsa"
	"crypto/elliptic"
	"crypto/rand"
	"crypto/sha256"
	"crypto/x509"
	"encoding/base64"
	"encoding/binary"
	"encoding/json"
	"encoding/pem"
	"errors"
	"fmt"
	"os"
	"path/filepath"
	"strings"
	"syscall"
	"testing"

	"wagtenib/internal/audit/judge"
	"wagtenib/internal/testkit"
)

// log is a log with one leaf, whose certificate is longer than the default maximum of a scanner's line.
type log struct {
	folder, key string
	answer      judge.Answer
}

func newLog(t testing.TB) log {
	key, err := ecdsa.GenerateKey(elliptic.P256(), rand.Reader)
	must(t, err)
	der, err := x509.MarshalPKIXPublicKey(&key.PublicKey)
	must(t, err)
	signed := func(message []byte) []byte {
		digest := sha256.Sum256(message)
		signature, err := ecdsa.SignASN1(rand.Reader, key, digest[:])
		must(t, err)
		return append([]byte{4, 3, 0, byte(len(signature))}, signature...)
	}
	const origin, timestamp, head = "log.example/judged", 7, 9
	certificate := make([]byte, 90_000)
	extensions := []byte{0, 0, 5, 0, 0, 0, 0, 0}
	entry := append(binary.BigEndian.AppendUint64(nil, timestamp), 0, 0, byte(len(certificate)>>16),
		byte(len(certificate)>>8), byte(len(certificate)&255))
	entry = append(append(append(entry, certificate...), 0, 8), extensions...)
	leaf := append([]byte{0, 0}, entry...)
	// The root of a tree with one leaf is the leaf's hash.
	root := sha256.Sum256(append([]byte{0}, leaf...))
	id := sha256.Sum256(der)
	name := sha256.Sum256(append([]byte(origin+"\n\x05"), id[:]...))
	message := binary.BigEndian.AppendUint64([]byte{0, 1}, head)
	message = append(binary.BigEndian.AppendUint64(message, 1), root[:]...)
	blob := append(binary.BigEndian.AppendUint64(append([]byte{}, name[:4]...), head), signed(message)...)
	l := log{t.TempDir(), filepath.Join(t.TempDir(), "log.pem"),
		judge.Answer{Certificate: certificate, Timestamp: timestamp, Extensions: extensions,
			Signature: signed(leaf), LogID: id[:]}}
	in := base64.StdEncoding
	for name, content := range map[string][]byte{
		"tile/0/000.p/1": root[:], "tile/data/000.p/1": append(entry, 0, 0),
		fmt.Sprintf("heads/%020d-%020d", 1, head): []byte(fmt.Sprintf("%s\n1\n%s\n\n— %s %s\n", origin,
			in.EncodeToString(root[:]), origin, in.EncodeToString(blob))),
	} {
		path := filepath.Join(l.folder, name)
		must(t, os.MkdirAll(filepath.Dir(path), 0o755))
		must(t, os.WriteFile(path, content, 0o600))
	}
	must(t, os.WriteFile(l.key, pem.EncodeToMemory(&pem.Block{Type: "PUBLIC KEY", Bytes: der}), 0o600))
	return l
}

// file returns a file with these answers.
func file(t testing.TB, answers ...judge.Answer) string {
	path := filepath.Join(t.TempDir(), "answers")
	var lines bytes.Buffer
	for _, answer := range answers {
		must(t, json.NewEncoder(&lines).Encode(answer))
	}
	must(t, os.WriteFile(path, lines.Bytes(), 0o600))
	return path
}

// judged judges a folder.
func judged(t *testing.T, folder, keyFile string, answerFiles []string) (judge.Report, error) {
	t.Helper()
	return judgeLog(t.Context(), folder, keyFile, answerFiles, t.TempDir())
}

// TestJudge checks that all answers in all files are checked, and that the error names a file that does not exist or
// has no key or answer.
func TestJudge(t *testing.T) {
	l := newLog(t)
	report, err := judged(t, l.folder, l.key, []string{file(t, l.answer), file(t, l.answer, l.answer), file(t)})
	if expected := (judge.Report{Heads: 1, Leaves: 1, Tiles: 2, Answers: 3}); err != nil || report != expected {
		t.Fatalf("%+v, expected %+v: %v", report, expected, err)
	}
	wrong := l.answer
	wrong.Timestamp++
	if _, err := judged(t, l.folder, l.key, []string{file(t, wrong), file(t, l.answer)}); err == nil ||
		!strings.Contains(err.Error(), "answer 0") {
		t.Errorf("a wrong answer of the first file: %v", err)
	}
	if _, err := judged(t, l.folder, l.key, []string{file(t, l.answer), file(t, wrong)}); err == nil ||
		!strings.Contains(err.Error(), "answer 1") {
		t.Errorf("a wrong answer of the second file: %v", err)
	}
	content, err := os.ReadFile(l.key)
	must(t, err)
	for what, text := range map[string]string{
		"no PEM": "x", "another kind": strings.ReplaceAll(string(content), "PUBLIC KEY", "CERTIFICATE"),
	} {
		path := filepath.Join(t.TempDir(), "key")
		must(t, os.WriteFile(path, []byte(text), 0o600))
		if _, err := judged(t, l.folder, path, nil); err == nil ||
			!strings.Contains(err.Error(), "is not a public key in PEM") {
			t.Errorf("%s in place of a key: %v", what, err)
		}
	}
	long := filepath.Join(t.TempDir(), "long")
	whole, err := os.ReadFile(file(t, l.answer))
	must(t, err)
	must(t, os.WriteFile(long, append(whole, strings.Repeat(" ", maxLine)+"{}\n"...), 0o600))
	if _, err := judged(t, l.folder, l.key, []string{long}); !errors.Is(err, bufio.ErrTooLong) ||
		!strings.Contains(err.Error(), long+": line 2: ") {
		t.Errorf("a line that is too long: %v", err)
	}
	for _, text := range []string{"x\n", "[]\n", `{"timestamp":"7"}` + "\n", "null\n", "{\n}\n"} {
		path := filepath.Join(t.TempDir(), "answers")
		must(t, os.WriteFile(path, []byte(text), 0o600))
		if _, err := judged(t, l.folder, l.key, []string{path}); err == nil ||
			!strings.Contains(err.Error(), path+": not an answers file of ctload: line 1") {
			t.Errorf("%q: %v", text, err)
		}
	}
	nowhere := filepath.Join(t.TempDir(), "nowhere")
	for _, of := range [][3]string{{nowhere, l.key, ""}, {l.folder, nowhere, ""}, {l.folder, l.key, nowhere}} {
		var files []string
		if of[2] != "" {
			files = append(files, of[2])
		}
		if _, err := judged(t, of[0], of[1], files); !errors.Is(err, os.ErrNotExist) {
			t.Errorf("%q: %v", of, err)
		}
	}
}

// TestRefusesOtherAnswers checks that an answer of add-chain is not accepted as a line of an answers file, nor a line
// that lacks a field. The error names the file, the line and the field.
func TestRefusesOtherAnswers(t *testing.T) {
	l := newLog(t)
	refused := func(what, text, expected string) {
		t.Helper()
		path := file(t, l.answer)
		whole, err := os.ReadFile(path)
		must(t, err)
		must(t, os.WriteFile(path, append(whole, text+"\n"...), 0o600))
		expected = path + ": not an answers file of ctload: line 2 has no field " + expected + " "
		if _, err := judged(t, l.folder, l.key, []string{path}); err == nil || !strings.Contains(err.Error(), expected) {
			t.Errorf("%s: %v, expected %q", what, err, expected)
		}
	}
	in := base64.StdEncoding.EncodeToString
	refused("an answer of add-chain",
		fmt.Sprintf(`{"sct_version":0,"id":%q,"timestamp":%d,"extensions":%q,"signature":%q}`,
			in(l.answer.LogID), l.answer.Timestamp, in(l.answer.Extensions), in(l.answer.Signature)), "log_id")
	precertificate := l.answer
	precertificate.Certificate, precertificate.IssuerKeyHash = nil, make([]byte, 32)
	precertificate.TBSCertificate = []byte{1}
	for _, of := range []struct {
		answer judge.Answer
		names  []string
	}{
		{l.answer, []string{"log_id", "timestamp", "extensions", "signature", "certificate"}},
		{precertificate, []string{"log_id", "timestamp", "extensions", "signature", "issuer_key_hash", "tbs_certificate"}},
	} {
		for _, name := range of.names {
			line, err := json.Marshal(of.answer)
			must(t, err)
			var fields map[string]json.RawMessage
			must(t, json.Unmarshal(line, &fields))
			if len(fields) != len(of.names) || fields[name] == nil {
				t.Fatalf("an answer has %d fields, and %s is one", len(fields), name)
			}
			delete(fields, name)
			line, err = json.Marshal(fields)
			must(t, err)
			refused("an answer without "+name, string(line), name)
		}
	}
}

// newMirror returns a copy of a log's folder as a mirror keeps it: with a checkpoint in place of the tree heads.
func newMirror(t testing.TB, l log) string {
	folder := t.TempDir()
	must(t, os.CopyFS(folder, os.DirFS(l.folder)))
	heads, err := filepath.Glob(filepath.Join(folder, "heads", "*"))
	must(t, err)
	if len(heads) != 1 {
		t.Fatalf("the log has the heads %q", heads)
	}
	must(t, os.Rename(heads[0], filepath.Join(folder, "checkpoint")))
	return folder
}

// TestStatus checks that a correct log has status 0, that a wrong one has status 1 and the reason on standard error,
// and that wrong arguments have status 2.
func TestStatus(t *testing.T) {
	l := newLog(t)
	wrong := l.answer
	wrong.LogID = make([]byte, 32)
	empty := t.TempDir()
	for _, of := range []struct {
		arguments    []string
		status       int
		out, problem string
	}{
		{[]string{l.folder, l.key, file(t, l.answer)}, 0,
			"1 heads, 1 leaves (0 repeats), 2 tiles, 0 issuers, 1 timestamps: all as they have to be\n", ""},
		{[]string{l.folder, l.key, file(t, wrong)}, statusFault, "", "a timestamp of another log"},
		{[]string{newMirror(t, l), l.key, file(t, l.answer)}, 0,
			"1 heads, 1 leaves (0 repeats), 2 tiles, 0 issuers, 1 timestamps: all as they have to be\n", ""},
		{[]string{empty, l.key}, statusUsage, "",
			"ctaudit: " + empty + ": there is no head, neither in heads/ nor as checkpoint (give "},
		{[]string{"https://log.example", l.key}, statusUsage, "",
			"ctaudit: https://log.example is not a folder or a bucket (keep a copy of the log by ctwatch run --keep, or "},
		{[]string{"s3://bucket.example", l.key}, statusUsage, "", "ctaudit: stores: invalid address: "},
		{[]string{"/absent", l.key}, statusUsage, "", "no such file"},
		{[]string{l.folder, "/absent"}, statusUsage, "", "no such file"},
		{[]string{l.folder, l.key, "/absent"}, statusUsage, "", "no such file"},
		{[]string{l.folder, l.key, l.key}, statusUsage, "", "ctaudit: " + l.key + ": not an answers file of ctload: line 1: "},
		{[]string{l.folder, file(t)}, statusUsage, "", "is not a public key in PEM"},
		{[]string{l.folder}, statusUsage, "", "write ctaudit fsck FOLDER|s3://.. KEY.PEM [ANSWERS..];"},
		{nil, statusUsage, "", "write ctaudit fsck FOLDER|s3://.. KEY.PEM [ANSWERS..];"},
	} {
		if status, out, problem := ctaudit(t, append([]string{"fsck"}, of.arguments...)...); status != of.status ||
			out != of.out || !strings.Contains(problem, of.problem) || (of.problem == "") != (problem == "") {
			t.Errorf("%q: status %d, %q and %q", of.arguments, status, out, problem)
		}
	}
}

// TestEndsAtASignal checks that SIGTERM ends a run that still reads, with status 1.
func TestEndsAtASignal(t *testing.T) {
	l := newLog(t)
	answers := filepath.Join(t.TempDir(), "answers")
	must(t, syscall.Mkfifo(answers, 0o600))
	command := testkit.Program(t, "fsck", l.folder, l.key, answers)
	var problem bytes.Buffer
	command.Stderr = &problem
	must(t, command.Start())
	// The file can be opened after the program has opened it to read.
	writer, err := os.OpenFile(answers, os.O_WRONLY, 0)
	must(t, err)
	defer writer.Close()
	must(t, command.Process.Signal(syscall.SIGTERM))
	if err := command.Wait(); command.ProcessState.ExitCode() != statusFault ||
		!strings.Contains(problem.String(), "a signal ended it") {
		t.Errorf("%v: %s", err, &problem)
	}
}
