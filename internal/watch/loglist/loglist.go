// Package loglist reads log lists in version 3 of Google's format
// (https://www.gstatic.com/ct/log_list/v3/log_list_schema.json), and follows the changes of a list.
package loglist

import (
	"crypto"
	"crypto/ecdsa"
	"crypto/rsa"
	"crypto/sha256"
	"crypto/x509"
	"encoding/json"
	"encoding/pem"
	"errors"
	"fmt"
	"net/url"
	"slices"
	"strings"
	"time"

	"wagtenib/internal/watch"
)

// The reasons why a list is refused, for errors.Is.
var (
	// ErrForm means that the bytes are not a log list of version 3, or that no log of the list can be read.
	ErrForm = errors.New("loglist: not a log list of version 3")
	// ErrSignature means that the list is not signed with the given key.
	ErrSignature = errors.New("loglist: the list is not signed with the given key")
	// ErrKey means that the key for the list's signature cannot be read.
	ErrKey = errors.New("loglist: not a public key of RSA or ECDSA in PEM")
	// ErrOlder means that the list is older than the last one.
	ErrOlder = errors.New("loglist: the list is older than the last one, which is kept")
)

// Log is a log of a list.
type Log struct {
	watch.Log
	Operator string
	Start    time.Time // the log accepts certificates that expire from this time on; zero if there is no such bound
	End      time.Time // and before this time; zero if there is no such bound
}

// List is a log list.
type List struct {
	Version string
	Time    time.Time // log_list_timestamp; zero if there is none
	Logs    []Log
	Passed  []error // one error for each log of the list that is passed over
	Content []byte  // the list as received
}

// WatchedStates holds the states whose logs are watched by default. Browsers accept SCTs of logs in these states.
var WatchedStates = []string{"qualified", "usable", "readonly"}

// knownStates holds all states of the format. A log should have only one. If it has more, the first one here counts.
var knownStates = []string{"rejected", "retired", "readonly", "usable", "qualified", "pending"}

// InStates returns the logs of the list that are in one of these states.
func (l List) InStates(states ...string) (logs []watch.Log) {
	for _, log := range l.Logs {
		if slices.Contains(states, log.State) {
			logs = append(logs, log.Log)
		}
	}
	return logs
}

// listed holds a log in the list's JSON, which is an element of `logs` or of `tiled_logs`.
type listed struct {
	Description   string                     `json:"description"`
	LogID         []byte                     `json:"log_id"`
	Key           []byte                     `json:"key"`
	URL           string                     `json:"url"`
	SubmissionURL string                     `json:"submission_url"`
	MonitoringURL string                     `json:"monitoring_url"`
	MMD           uint64                     `json:"mmd"` // seconds
	State         map[string]json.RawMessage `json:"state"`
	Interval      *struct {
		Start time.Time `json:"start_inclusive"`
		End   time.Time `json:"end_exclusive"`
	} `json:"temporal_interval"`
}

// Parse reads a log list. The error is nil or wraps ErrForm. A log whose entry is faulty is passed over, and the list's
// Passed says why.
func Parse(content []byte) (List, error) {
	var parsed struct {
		Version   string    `json:"version"`
		Time      time.Time `json:"log_list_timestamp"`
		Operators []struct {
			Name  string            `json:"name"`
			Logs  []json.RawMessage `json:"logs"`
			Tiled []json.RawMessage `json:"tiled_logs"`
		} `json:"operators"`
	}
	if err := json.Unmarshal(content, &parsed); err != nil {
		return List{}, fmt.Errorf("%w: %v", ErrForm, err)
	}
	list := List{Version: parsed.Version, Time: parsed.Time, Content: content}
	seen := map[watch.LogID]bool{}
	for _, operator := range parsed.Operators {
		for isTiled, entries := range map[bool][]json.RawMessage{false: operator.Logs, true: operator.Tiled} {
			for _, entry := range entries {
				log, err := parseLog(entry, isTiled)
				if err == nil && seen[log.ID] {
					err = fmt.Errorf("loglist: %.200q is passed over: its log_id is in the list twice", log.Name)
				}
				if err != nil {
					list.Passed = append(list.Passed, err)
					continue
				}
				seen[log.ID] = true
				log.Operator = operator.Name
				list.Logs = append(list.Logs, log)
			}
		}
	}
	if len(list.Logs) == 0 {
		return List{}, errors.Join(append([]error{fmt.Errorf("%w: it has no log that can be read", ErrForm)},
			list.Passed...)...)
	}
	slices.SortFunc(list.Logs, func(a, b Log) int {
		return strings.Compare(a.Name+string(a.ID[:]),
			b.Name+string(b.ID[:]))
	})
	return list, nil
}

// parseLog reads one log of a list.
func parseLog(content json.RawMessage, isTiled bool) (Log, error) {
	var entry listed
	passed := func(format string, values ...any) (Log, error) {
		return Log{}, fmt.Errorf("loglist: %.200q is passed over: %s", entry.Description, fmt.Sprintf(format, values...))
	}
	if err := json.Unmarshal(content, &entry); err != nil {
		return passed("%v", err)
	}
	if id := sha256.Sum256(entry.Key); len(entry.LogID) != len(id) || [32]byte(entry.LogID) != id {
		return passed("its log_id is not the hash of its key")
	}
	if entry.MMD == 0 || entry.MMD > 365*24*3600 {
		return passed("its maximum merge delay (mmd) is %d seconds", entry.MMD)
	}
	log := Log{Log: watch.Log{ID: watch.LogID(entry.LogID), Name: entry.Description, URL: entry.URL, PublicKey: entry.Key,
		MaxMergeDelay: time.Duration(entry.MMD) * time.Second}}
	if isTiled {
		log.URL = entry.MonitoringURL
		// The origin is the submission prefix without its scheme and without a slash at its end (C2SP static-ct-api,
		// "Parameters").
		_, log.Origin, _ = strings.Cut(strings.TrimRight(entry.SubmissionURL, "/"), "://")
		if log.Origin == "" {
			return passed("its submission_url is %q", entry.SubmissionURL)
		}
	}
	log.URL = strings.TrimRight(log.URL, "/")
	if !isAddress(log.URL) {
		return passed("its address is %q", log.URL)
	}
	if log.Name == "" {
		log.Name = strings.TrimPrefix(strings.TrimPrefix(log.URL, "https://"), "http://")
	}
	if entry.Interval != nil {
		log.Start, log.End = entry.Interval.Start, entry.Interval.End
	}
	for _, state := range knownStates {
		if _, ok := entry.State[state]; ok {
			log.State = state
			break
		}
	}
	return log, nil
}

// isAddress reports whether a text can be the address of a log.
func isAddress(text string) bool {
	address, err := url.Parse(text)
	return err == nil && (address.Scheme == "https" || address.Scheme == "http") && address.Host != "" &&
		address.User == nil && address.RawQuery == ""
}

// CheckSignature verifies the signature of a list with a public key in PEM (RSA of PKCS #1 v1.5 or ECDSA, with
// SHA-256). Google publishes a signature and a key with its list. The error is nil, or wraps ErrKey or ErrSignature.
func CheckSignature(content, signed, keyPEM []byte) error {
	block, _ := pem.Decode(keyPEM)
	if block == nil {
		return ErrKey
	}
	key, err := x509.ParsePKIXPublicKey(block.Bytes)
	if err != nil {
		return fmt.Errorf("%w: %v", ErrKey, err)
	}
	digest := sha256.Sum256(content)
	switch key := key.(type) {
	case *rsa.PublicKey:
		if rsa.VerifyPKCS1v15(key, crypto.SHA256, digest[:], signed) == nil {
			return nil
		}
	case *ecdsa.PublicKey:
		if ecdsa.VerifyASN1(key, digest[:], signed) {
			return nil
		}
	default:
		return ErrKey
	}
	return ErrSignature
}
