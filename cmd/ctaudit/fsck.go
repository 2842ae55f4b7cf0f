package main

import (
	"bufio"
	"context"
	"encoding/json"
	"encoding/pem"
	"errors"
	"fmt"
	"io"
	"os"
	"strings"

	"wagtenib/internal/audit/judge"
	"wagtenib/internal/blob"
)

// fsckPage is what `ctaudit fsck --help` prints.
const fsckPage = `ctaudit fsck FOLDER|s3://.. KEY.PEM [ANSWERS..]

Checks a log by what it published. It prints what it saw, or what is wrong, with status 1.

  FOLDER|s3://..  the log's objects: FOLDER/objects of the log's folder, a copy of it, a mirror that ctwatch run --keep
                  keeps (a folder of the log's ID), or the address of its bucket
  KEY.PEM         the file with the log's public key in PEM
  ANSWERS         a file that ctload --answers wrote. Each timestamp in it must be that of the log, and have its entry

ctaudit sct --sct checks a single answer of add-chain.`

// runFsck judges the folder or the bucket of a log, and prints what it saw.
func runFsck(ctx context.Context, arguments []string, out io.Writer) error {
	arguments, err := parseFlags(flagsOf("fsck"), fsckPage, arguments, 2, -1, out)
	if err != nil {
		return err
	}
	if !isBucket(arguments[0]) {
		if strings.Contains(arguments[0], "://") {
			return fmt.Errorf("%w: %s is not a folder or a bucket (keep a copy of the log by ctwatch run --keep, or ask the "+
				"log by ctaudit probe)", errUsage, arguments[0])
		}
		if err := checkExists(arguments[0]); err != nil {
			return err
		}
	}
	copied, err := os.MkdirTemp("", "ctaudit")
	if err != nil {
		return err
	}
	defer os.RemoveAll(copied)
	report, err := untilEnded(ctx, func() (judge.Report, error) {
		return judgeLog(ctx, arguments[0], arguments[1], arguments[2:], copied)
	})
	if err != nil {
		return err
	}
	_, err = fmt.Fprintf(out, "%d heads, %d leaves (%d repeats), %d tiles, %d issuers, %d timestamps: all as they have to be\n",
		report.Heads, report.Leaves, report.Repeats, report.Tiles, report.Issuers, report.Answers)
	return err
}

// errInterrupted means that a signal ended the command before it came to an outcome.
var errInterrupted = errors.New("ctaudit: a signal ended it before the outcome was known")

// untilEnded returns the outcome of a function, or errInterrupted if the context ends first. The judge knows no context.
func untilEnded[T any](ctx context.Context, do func() (T, error)) (T, error) {
	type outcome struct {
		value T
		err   error
	}
	done := make(chan outcome, 1)
	go func() {
		value, err := do()
		done <- outcome{value, err}
	}()
	select {
	case of := <-done:
		return of.value, of.err
	case <-ctx.Done():
		var none T
		return none, errInterrupted
	}
}

// isBucket reports whether an argument is the address of a bucket, and not a folder.
func isBucket(argument string) bool { return strings.HasPrefix(argument, "s3://") }

// checkExists returns an error if a file or folder that the command line names does not exist.
func checkExists(path string) error {
	if _, err := os.Stat(path); err != nil {
		return fmt.Errorf("%w: %w", errUsage, err)
	}
	return nil
}

// readKey returns the public key in a PEM file, as DER.
func readKey(keyFile string) ([]byte, error) {
	content, err := os.ReadFile(keyFile)
	if err != nil {
		return nil, fmt.Errorf("%w: %w", errUsage, err)
	}
	block, _ := pem.Decode(content)
	if block == nil || block.Type != "PUBLIC KEY" {
		return nil, fmt.Errorf("%w: %s is not a public key in PEM", errUsage, keyFile)
	}
	return block.Bytes, nil
}

// judgeLog judges a folder, or a bucket, which it copies into another folder first.
func judgeLog(ctx context.Context, folder, keyFile string, answerFiles []string, copied string) (judge.Report, error) {
	key, err := readKey(keyFile)
	if err != nil {
		return judge.Report{}, err
	}
	var answers []judge.Answer
	for _, name := range answerFiles {
		if answers, err = readAnswers(name, answers); err != nil {
			return judge.Report{}, err
		}
	}
	objects := folder
	if isBucket(folder) {
		if err := fetch(ctx, folder, copied); err != nil {
			return judge.Report{}, err
		}
		objects = copied
	}
	report, err := judge.Folder(objects, key, answers)
	if errors.Is(err, judge.ErrNoHead) {
		return report, fmt.Errorf("%w: %s: %w, neither in heads/ nor as checkpoint (give the folder objects of a log, a "+
			"mirror that ctwatch run --keep keeps, or a log's bucket)", errUsage, folder, judge.ErrNoHead)
	}
	if err != nil {
		return report, err
	}
	_, err = judge.Precertificates(objects)
	return report, err
}

// fetch copies a bucket into a folder, except its staged batches.
func fetch(ctx context.Context, address, folder string) error {
	objects, err := blob.ObjectsAt(ctx, address)
	if errors.Is(err, blob.ErrAddress) {
		return fmt.Errorf("%w: %w", errUsage, err)
	}
	if err != nil {
		return err
	}
	defer objects.Close()
	_, err = blob.Copy(ctx, objects, folder, "staging/", "conditional-put/")
	return err
}

// maxLine is the maximum number of bytes of a line of an answers file.
const maxLine = 1 << 20

func readAnswers(name string, answers []judge.Answer) ([]judge.Answer, error) {
	file, err := os.Open(name)
	if err != nil {
		return nil, fmt.Errorf("%w: %w", errUsage, err)
	}
	defer file.Close()
	lines := bufio.NewScanner(file)
	lines.Buffer(nil, maxLine)
	number := 1
	for ; lines.Scan(); number++ {
		var a judge.Answer
		var fields map[string]json.RawMessage
		err := json.Unmarshal(lines.Bytes(), &a)
		if err == nil {
			err = json.Unmarshal(lines.Bytes(), &fields)
		}
		if err != nil {
			return nil, fmt.Errorf("%w: %s: not an answers file of ctload: line %d: %w", errUsage, name, number, err)
		}
		if field := missing(fields); field != "" {
			return nil, fmt.Errorf("%w: %s: not an answers file of ctload: line %d has no field %s "+
				"(ctaudit sct --sct checks an answer of add-chain)", errUsage, name, number, field)
		}
		answers = append(answers, a)
	}
	if err := lines.Err(); err != nil {
		return nil, fmt.Errorf("%w: %s: line %d: %w (a line has at most %d bytes)", errUsage, name, number, err, maxLine)
	}
	return answers, nil
}

// missing returns the name of a field of judge.Answer that a line lacks, or an empty text. The line of a
// precertificate has issuer_key_hash and tbs_certificate, and the line of a certificate has certificate.
func missing(fields map[string]json.RawMessage) string {
	names := []string{"log_id", "timestamp", "extensions", "signature", "certificate"}
	if fields["issuer_key_hash"] != nil || fields["tbs_certificate"] != nil {
		names = append(names[:4:4], "issuer_key_hash", "tbs_certificate")
	}
	for _, name := range names {
		if fields[name] == nil {
			return name
		}
	}
	return ""
}
