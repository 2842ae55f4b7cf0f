package main

import (
	"context"
	"crypto/tls"
	"errors"
	"fmt"
	"io"
	"net/http"
	"time"

	"wagtenib/internal/audit"
	"wagtenib/internal/blob"
	"wagtenib/internal/watch"
	"wagtenib/internal/watch/alert"
	"wagtenib/internal/watch/logflags"
	"wagtenib/internal/watch/watchstore"
	"wagtenib/internal/witness"
)

// cosignPage is what `ctaudit cosign --help` prints before the flags.
const cosignPage = `ctaudit cosign URL,KEY

Asks a witness to cosign the newest head of a tiled log that ctwatch run accepted. URL is the witness's address, and KEY
its verifier key.
`

// witnessTimeout is the maximum time for the answer of a witness.
const witnessTimeout = 30 * time.Second

// runCosign asks a witness to cosign the newest accepted head of a tiled log, and writes the checkpoint with the
// cosignature to a file, or prints it.
func runCosign(ctx context.Context, arguments []string, out io.Writer) error {
	var named logflags.Logs
	flags := flagsOf("cosign")
	named.Define(flags)
	folder := flags.String("folder", watchstore.DefaultFolder(), "`folder` of the store of ctwatch")
	into := flags.String("into", "", "`file` that gets the cosigned checkpoint; standard output if it is empty")
	arguments, err := parseFlags(flags, cosignPage, arguments, 1, 1, out)
	if err != nil {
		return err
	}
	one, err := witness.ReadOne(arguments[0])
	if err != nil {
		return fmt.Errorf("%w: a witness is its URL, a comma and its verifier key: %w", errUsage, err)
	}
	if len(named.Only) != 1 || !named.Only[0].IsTiled() {
		return fmt.Errorf("%w: name one tiled log (write --log 'tiled+https://HOST/PATH KEY-FILE')", errUsage)
	}
	client, err := clientOf(&named)
	if err != nil {
		return err
	}
	head, err := acceptedHead(*folder, named.Only[0])
	if err != nil {
		return err
	}
	reader, err := watch.NewReader(named.Only[0], client)
	if err != nil {
		return err
	}
	asked := witness.Client{One: one, HTTP: &http.Client{Timeout: witnessTimeout,
		Transport: &http.Transport{Proxy: http.ProxyFromEnvironment,
			TLSClientConfig: &tls.Config{MinVersion: tls.VersionTLS12}}}}
	cosigned, err := audit.Cosign(ctx, reader, head, asked)
	switch {
	case errors.Is(err, audit.ErrWitnessSaw):
		return &statusError{statusAccused, err.Error()}
	case err != nil:
		return &statusError{statusUnread, err.Error()}
	case *into == "":
		_, err = out.Write(cosigned)
		return err
	}
	if err := blob.ShowFile(*into, cosigned); err != nil {
		return err
	}
	_, err = fmt.Fprintf(out, "%d leaves are cosigned by %s\n", head.TreeSize, alert.Safe(one.Name))
	return err
}

// acceptedHead returns the newest accepted head of a log from the store.
func acceptedHead(folder string, log watch.Log) (head watch.Head, err error) {
	store, err := watchstore.OpenToRead(folder)
	if err != nil {
		return head, err
	}
	state, err := store.Load(log.ID)
	if err = errors.Join(err, store.Close()); err != nil {
		return head, err
	}
	if len(state.Accepted.Signed) == 0 {
		return head, fmt.Errorf("ctaudit: no head of %s is accepted yet (ctwatch run must have read it whole)",
			alert.Safe(log.Name))
	}
	return state.Accepted.Head, nil
}
