package main

import (
	"context"
	"fmt"
	"io"
	"path/filepath"

	"wagtenib/internal/audit/judge"
)

// evidencePage is what `ctaudit evidence --help` prints.
const evidencePage = `ctaudit evidence FOLDER KEY.PEM

Checks evidence against a log. It prints what the files show, and what must be believed in addition. The status is 1 if
they do not show what evidence.json says.

  FOLDER   the folder with the files that ctwatch evidence, or a command with --evidence, wrote
  KEY.PEM  the file with the log's public key in PEM, from a log list and not from FOLDER`

// runEvidence checks evidence against a log, and prints what its files show.
func runEvidence(ctx context.Context, arguments []string, out io.Writer) error {
	arguments, err := parseFlags(flagsOf("evidence"), evidencePage, arguments, 2, 2, out)
	if err != nil {
		return err
	}
	if err := checkExists(arguments[0]); err != nil {
		return err
	}
	if err := checkExists(filepath.Join(arguments[0], "evidence.json")); err != nil {
		return fmt.Errorf("%w (give the folder of one piece of evidence; --evidence FOLDER writes each piece into a folder "+
			"below FOLDER)", err)
	}
	key, err := readKey(arguments[1])
	if err != nil {
		return err
	}
	shown, err := untilEnded(ctx, func() (string, error) { return judge.Evidence(arguments[0], key) })
	if err != nil {
		return err
	}
	_, err = fmt.Fprintln(out, shown)
	return err
}
