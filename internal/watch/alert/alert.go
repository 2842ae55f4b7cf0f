// Package alert reports certificates that were found in logs to their owner: on the terminal, as JSON lines, by mail,
// by a webhook or by a command.
//
// Alerts come from a Queue, which is in the store. Each Output gets each alert once. If ctwatch is killed after it has
// sent an alert and before it has marked this in the store, the alert is sent a second time, with the mark "again".
//
// Safe escapes every text that comes from a certificate or from a log, so an output need not escape it for a terminal.
package alert

import (
	"fmt"
	"strings"
	"time"
	"unicode"
	"unicode/utf8"
)

// Kind is the kind of an alert.
type Kind string

// The kinds of alerts.
const (
	Found    Kind = "found"    // a certificate has a watched name
	Unread   Kind = "unread"   // the names of a certificate cannot be read
	Evidence Kind = "evidence" // a log did something wrong, and the evidence is stored
	Unproved Kind = "unproved" // a log did not prove that a signed head belongs to its history, which is no accusation
	Silent   Kind = "silent"   // a log, or the log list, could not be read for too long

	Unrenewed Kind = "unrenewed" // a certificate ends soon, and no newer one was logged for a watched name
	Renewed   Kind = "renewed"   // a newer certificate was logged: it takes back the alert Unrenewed about this one
)

// Alert is one message to an owner.
type Alert struct {
	ID          int64        `json:"id"` // alerts are numbered from 1 on
	Kind        Kind         `json:"kind"`
	Time        time.Time    `json:"time"`            // when it was found
	Again       bool         `json:"again,omitempty"` // it may have been sent before
	Certificate *Certificate `json:"certificate,omitempty"`
	Text        string       `json:"text,omitempty"` // only set for the kinds unrenewed and renewed
	Log         *Log         `json:"log,omitempty"`  // only set for the kinds evidence, unproved and silent
}

// Certificate is an issuance: a certificate, or its precertificate, in any number of logs.
type Certificate struct {
	Matches     []Match    `json:"matches"`
	Names       []string   `json:"names"`      // at most MaxNames
	NameCount   int        `json:"name_count"` // the number of all names
	Fields      Fields     `json:"fields"`
	SHA256      string     `json:"sha256"`     // of the one that was stored first, in hexadecimal digits
	TBSSHA256   string     `json:"tbs_sha256"` // of the TBSCertificate without poison and SCTs; both have the same
	Sightings   []Sighting `json:"sightings"`
	Kept        string     `json:"kept"` // says how to get the certificate
	Fault       string     `json:"fault,omitempty"`
	IsFromStore bool       `json:"from_store,omitempty"` // found in the store for a name that was added later
}

// Match is a watched name that was found.
type Match struct {
	Name   string   `json:"name"`
	Place  string   `json:"place"`  // san, cn, like-san, like-cn, bytes or everything
	Proved bool     `json:"proved"` // whether the proved library found the match
	Hosts  []string `json:"hosts"`  // the names of the certificate that match, at most MaxNames
}

// Fields holds fields of a certificate. A field that cannot be read is empty.
type Fields struct {
	Subject      string    `json:"subject"`
	Issuer       string    `json:"issuer"`
	SerialNumber string    `json:"serial_number"`
	NotBefore    time.Time `json:"not_before,omitzero"`
	NotAfter     time.Time `json:"not_after,omitzero"`
	KeySHA256    string    `json:"key_sha256"` // of the SubjectPublicKeyInfo, in hexadecimal digits
}

// Sighting is a log entry with the certificate or precertificate.
type Sighting struct {
	Log       string    `json:"log"`
	URL       string    `json:"url"`
	Index     uint64    `json:"index"`
	Timestamp time.Time `json:"timestamp"`
	Type      string    `json:"type"` // certificate or precertificate
}

// Log describes a log that did something wrong, gave no proof or does not answer, or the log list.
type Log struct {
	Name    string `json:"name"`
	URL     string `json:"url"`
	Verdict string `json:"verdict"`
	Text    string `json:"text"`
	Kept    string `json:"kept,omitempty"` // says how to get the evidence
}

// The bounds of an alert: the maximum number of names, of entries, and of bytes of each text.
const (
	MaxNames     = 20
	MaxSightings = 20
	maxText      = 300
)

// Safe returns a text in a form that is safe on a terminal, in a mail and in a variable of a command. It replaces each
// character that is not printable, and each byte that is not UTF-8, with its number, and doubles each backslash. It
// cuts a long text.
func Safe(text string) string {
	var safe strings.Builder
	for i := 0; i < len(text); {
		if safe.Len() >= maxText {
			fmt.Fprintf(&safe, "..(%d bytes)", len(text))
			break
		}
		one, size := utf8.DecodeRuneInString(text[i:])
		switch {
		case one == utf8.RuneError && size <= 1:
			fmt.Fprintf(&safe, `\x%02x`, text[i])
		case one == '\\':
			safe.WriteString(`\\`)
		case unicode.IsPrint(one):
			safe.WriteRune(one)
		default:
			fmt.Fprintf(&safe, `\u{%x}`, one)
		}
		i += size
	}
	return safe.String()
}

// SafeAll returns the result of Safe for the first texts, at most limit of them.
func SafeAll(texts []string, limit int) []string {
	safe := make([]string, 0, min(len(texts), limit))
	for _, text := range texts[:min(len(texts), limit)] {
		safe = append(safe, Safe(text))
	}
	return safe
}
