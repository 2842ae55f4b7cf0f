package main

import (
	"context"
	"crypto/sha256"
	"encoding/hex"
	"encoding/json"
	"encoding/pem"
	"errors"
	"fmt"
	"io"
	"os"
	"slices"
	"strconv"
	"strings"
	"time"

	"golang.org/x/crypto/cryptobyte"
	"golang.org/x/crypto/cryptobyte/asn1"

	"wagtenib/bindings/go/wagtenib"
	"wagtenib/internal/watch"
	"wagtenib/internal/watch/alert"
	"wagtenib/internal/watch/logflags"
	"wagtenib/internal/watch/namesearch"
)

var _ = addCommand("show", "LOG INDEX prints an entry of a log, and checks that the log's tree has it", runShow)

// runShow prints an entry, and checks its inclusion proof with the log's newest head. The exit status is statusAccused
// if the proof does not lead to the head, and statusUnread if the log does not answer.
func runShow(ctx context.Context, arguments []string, out io.Writer) error {
	flags := flagsOf("show")
	var asked logflags.Logs
	asked.Define(flags)
	folder := flags.String("evidence", "", "new `folder` that gets the entry, its audit path and the tree head "+
		"that the log signed, for ctaudit evidence")
	arguments, err := parseFlags(flags, arguments, 2, out)
	if err != nil {
		return err
	}
	index, err := strconv.ParseUint(arguments[1], 10, 64)
	if err != nil {
		return fmt.Errorf("%w: %q is not the index of an entry (write a number, as in an alert)", errUsage, arguments[1])
	}
	if err := watch.CheckNew(*folder); *folder != "" && err != nil {
		return fmt.Errorf("%w: --evidence: %w", errUsage, err)
	}
	client, err := asked.Client("ctwatch")
	if err != nil {
		return fmt.Errorf("%w: --contact: %w", errUsage, err)
	}
	client.Retrying = logflags.PrintRetries("ctwatch", os.Stderr)
	logs, err := asked.All(ctx, client)
	if err != nil {
		return &statusError{statusUnread, fmt.Sprintf("ctwatch: %v", err)}
	}
	log, err := logOf(logs, arguments[0])
	if err != nil {
		return err
	}
	reader, err := watch.NewReader(log, client)
	if err != nil {
		return err
	}
	head, err := reader.Head(ctx)
	if err != nil {
		return unread(log, err)
	}
	entry, err := reader.Entry(ctx, head, index)
	if errors.Is(err, watch.ErrAbsent) {
		return fmt.Errorf("ctwatch: %s: entry %d: %w", log.Name, index, err)
	}
	if err != nil {
		return unread(log, err)
	}
	if err := printEntry(log, entry, out); err != nil {
		return err
	}
	proof, err := prove(ctx, reader, head, entry, out)
	if err != nil || *folder == "" {
		return err
	}
	return writeEntry(*folder, log, head, entry, proof, out)
}

// writeEntry writes the files that show others that the log has an entry.
func writeEntry(folder string, log watch.Log, head watch.Head, entry watch.Entry, proof watch.Inclusion,
	out io.Writer) error {
	content, err := json.Marshal(proof)
	if err != nil {
		return err
	}
	text := fmt.Sprintf("the log has entry %d in its tree of %d leaves", proof.LeafIndex, proof.TreeSize)
	evidence, err := watch.NewEvidence(log, time.Now(), watch.VerdictEntry, text,
		map[string][]byte{watch.FileHead: head.Signed, watch.FileLeaf: entry.Leaf, watch.FileProof: content})
	if err != nil {
		return err
	}
	if err := evidence.Write(folder); err != nil {
		return err
	}
	_, err = fmt.Fprintf(out, "%s has the files that show this to others (ctaudit evidence %s KEY.PEM checks them).\n",
		folder, folder)
	return err
}

// unread returns the error for a log that gives no answer, or a wrong one.
func unread(log watch.Log, err error) error {
	return &statusError{statusUnread, fmt.Sprintf("ctwatch: %s: %v", alert.Safe(log.Name), err)}
}

// logOf returns the log with a name or an address.
func logOf(logs []watch.Log, text string) (watch.Log, error) {
	address := strings.TrimSuffix(strings.TrimPrefix(text, "tiled+"), "/")
	position := slices.IndexFunc(logs, func(log watch.Log) bool {
		return log.Name == text || strings.TrimSuffix(log.URL, "/") == address
	})
	if position < 0 {
		return watch.Log{}, fmt.Errorf("%w: none of %s is called %.200q or has this address (write a log's name as an "+
			"alert has it, or give the log by --log)", errUsage, alert.Count(int64(len(logs)), "log"), text)
	}
	return logs[position], nil
}

// printEntry prints an entry in the form of an alert, and its certificate in PEM.
func printEntry(log watch.Log, entry watch.Entry, out io.Writer) error {
	shown := &alert.Certificate{}
	if entry.Fault != nil {
		shown.Fault = alert.Safe(entry.Fault.Error())
		_, err := fmt.Fprint(out, alert.Paragraphs(alert.Alert{Certificate: shown}))
		return err
	}
	names, fault := wagtenib.CertificateNames(entry.Type, entry.Certificate)
	if fault != nil {
		shown.Fault = alert.Safe(fault.Error())
	}
	names, _ = namesearch.Once(names)
	shown.NameCount = len(names)
	for _, name := range names[:min(len(names), alert.MaxNames)] {
		shown.Names = append(shown.Names, alert.Safe(namesearch.Text(name)))
	}
	details := namesearch.ReadDetails(entry.Type, entry.Certificate)
	shown.Fields = alert.Fields{Subject: alert.Safe(details.Subject), Issuer: alert.Safe(details.Issuer),
		SerialNumber: alert.Safe(details.SerialNumber), NotBefore: details.NotBefore, NotAfter: details.NotAfter,
		KeySHA256: details.KeySHA256}
	sighting := alert.Sighting{Log: alert.Safe(log.Name), Index: entry.Index,
		Timestamp: time.UnixMilli(int64(entry.Timestamp)), Type: "certificate"}
	der := entry.Certificate
	if entry.Type == wagtenib.PrecertEntry {
		sighting.Type, der = "precertificate", entry.Precertificate
	}
	shown.Sightings = []alert.Sighting{sighting}
	if der == nil {
		_, err := fmt.Fprint(out, alert.Paragraphs(alert.Alert{Certificate: shown}), "The log has no precertificate beside "+
			"the leaf that can be read.\n")
		return err
	}
	digest := sha256.Sum256(der)
	shown.SHA256 = hex.EncodeToString(digest[:])
	text := alert.Paragraphs(alert.Alert{Certificate: shown})
	if entry.Type == wagtenib.PrecertEntry && !isOfLeaf(der, entry.Certificate) {
		text += "The proof does not cover the precertificate below, whose TBSCertificate is not that of the leaf. A " +
			"precertificate signing certificate may have issued it, or the log gives another one.\n"
	}
	if _, err := fmt.Fprint(out, text); err != nil {
		return err
	}
	return pem.Encode(out, &pem.Block{Type: "CERTIFICATE", Bytes: der})
}

// isOfLeaf reports whether a precertificate without the poison has the TBSCertificate of its leaf.
func isOfLeaf(precertificate, tbs []byte) bool {
	content := cryptobyte.String(precertificate)
	var own cryptobyte.String
	if !content.ReadASN1(&content, asn1.SEQUENCE) || !content.ReadASN1Element(&own, asn1.SEQUENCE) {
		return false
	}
	withoutPoison, err := wagtenib.PrecertificateEntry(own)
	return err == nil && slices.Equal(withoutPoison, tbs)
}

// prove checks with the library that the tree of a head has the entry, prints the outcome, and returns the proof.
func prove(ctx context.Context, reader *watch.Reader, head watch.Head, entry watch.Entry,
	out io.Writer) (watch.Inclusion, error) {
	var none watch.Inclusion
	leafHash := wagtenib.LeafHash(entry.Leaf)
	index, path, err := reader.FindLeaf(ctx, head, leafHash, entry.Index)
	switch {
	case errors.Is(err, watch.ErrAbsent):
		return none, &statusError{statusAccused, fmt.Sprintf("ctwatch: %s: the log gives entry %d, and its tree does not "+
			"have this leaf: %v", alert.Safe(reader.Log.Name), entry.Index, err)}
	case err != nil:
		return none, unread(reader.Log, err)
	}
	if err := wagtenib.VerifyInclusion(leafHash, index, head.TreeSize, path, head.Root); err != nil {
		return none, &statusError{statusAccused, fmt.Sprintf("ctwatch: %s: the log's proof does not lead from entry %d to "+
			"the root of its head of %d leaves: %v", alert.Safe(reader.Log.Name), entry.Index, head.TreeSize, err)}
	}
	otherIndex := ""
	if index != entry.Index {
		otherIndex = fmt.Sprintf(" (the log proves the same leaf at index %d)", index)
	}
	_, err = fmt.Fprintf(out, "The log's tree has this entry: the proof leads to the tree head of size %d that the log "+
		"signed at %s%s.\n", head.TreeSize, time.UnixMilli(int64(head.Timestamp)).UTC().Format(time.RFC3339), otherIndex)
	proof := watch.Inclusion{LeafIndex: index, TreeSize: head.TreeSize, LeafHash: leafHash[:]}
	for _, hash := range path {
		proof.AuditPath = append(proof.AuditPath, hash[:])
	}
	return proof, err
}
