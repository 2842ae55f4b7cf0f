package main

import (
	"errors"
	"fmt"
	"net"
	"net/url"
	"path/filepath"
	"strings"
	"time"

	"wagtenib/internal/blob"
	"wagtenib/internal/command/privatefile"
	"wagtenib/internal/command/settingsfile"
	"wagtenib/internal/log/httpd"
	"wagtenib/internal/log/signer"
	"wagtenib/internal/witness"
)

// validate checks the settings, also those that need one another, and sets defaults that follow from other settings.
func (s *settings) validate() error {
	n := &s.node
	for _, check := range []func() error{s.validateArchive, s.checkNeeded, s.validateAddresses, s.validateRules,
		s.checkDurations, n.validateMergeDelay, s.validateLimits, n.setDefaultStores, n.validateWitnesses,
		s.checkSecrets} {
		if err := check(); err != nil {
			return err
		}
	}
	return nil
}

// checkNeeded returns an error if a setting is missing, or excludes another one.
func (s *settings) checkNeeded() error {
	n := &s.node
	for _, needed := range []struct{ name, value string }{
		{"roots", strings.Join(s.roots.Paths, "")},
		{"origin", n.origin},
		{"signing-key or --signer-socket", n.signingKey + n.signerSocket},
	} {
		if needed.value == "" && n.archive == "" {
			return fmt.Errorf("--%s is missing", needed.name)
		}
	}
	if n.signerSocket != "" && (n.signingKey != "" || n.guard != nil || n.guardState != "") {
		return errors.New("--signer-socket replaces --signing-key, --guard and --guard-state: remove either")
	}
	if (s.certificate == "") != (s.key == "") {
		return errors.New("--tls-certificate and --tls-key need each other")
	}
	return nil
}

// named is the value of a setting.
type named struct{ name, value string }

// checkSecrets returns an error if other users may read a key, or if a password could be read on the way to a store.
func (s *settings) checkSecrets() error {
	n := &s.node
	err := checkKeyFiles(named{"signing-key", n.signingKey}, named{"tls-key", s.key}, named{"nodes-key", n.peers.key})
	if err != nil || n.allowPlaintext {
		return err
	}
	return checkTLS(named{"store", n.store}, named{"lock", n.lock}, named{"index", n.index},
		named{"guard-state", n.guardState})
}

// checkKeyFiles returns an error if not only its owner may read the file of a key. A file that cannot be opened is
// reported when the key is read.
func checkKeyFiles(keys ...named) error {
	for _, key := range keys {
		err := privatefile.CheckPath(signer.SecretFile(key.value), "a secret")
		if errors.Is(err, privatefile.ErrShared) {
			return fmt.Errorf("--%s: %w", key.name, err)
		}
	}
	return nil
}

// checkTLS returns an error if a store on another machine is called without TLS.
func checkTLS(addresses ...named) error {
	for _, address := range addresses {
		if err := blob.CheckTLS(address.value); err != nil {
			return fmt.Errorf("--%s: %w", address.name, err)
		}
	}
	return nil
}

// validateAddresses checks the origin, the monitoring URL and the addresses of the listeners.
func (s *settings) validateAddresses() error {
	if err := checkOrigin(s.node.origin); err != nil {
		return err
	}
	if s.monitoringURL == "" {
		s.monitoringURL = "https://" + s.node.origin + "/"
	}
	if err := checkMonitoringURL(s.monitoringURL); err != nil {
		return err
	}
	return checkListeners(s.listen, s.node.peers.listen, s.operator)
}

// validateRules sets the rules for accepted certificates, and checks the window.
func (s *settings) validateRules() error {
	s.rules.ServerAuthentication, s.roots.AnyPurpose = !s.anyPurpose, s.anyPurpose
	if window := s.rules.Window; !window.From.IsZero() && !window.To.IsZero() && !window.From.Before(window.To) {
		return errors.New("--not-after-start must be before --not-after-limit")
	}
	return nil
}

// checkDurations returns an error if a duration is not above 0. For these settings, 0 does not mean the default.
func (s *settings) checkDurations() error {
	n, l := &s.node, &s.limits
	for _, of := range []struct {
		name  string
		value time.Duration
	}{
		{"shutdown-timeout", s.endWithin},
		{"header-timeout", l.Headers},
		{"request-timeout", l.Request},
		{"submission-timeout", l.Submission},
		{"response-timeout", l.Answer},
		{"idle-timeout", l.Idle},
		{"max-merge-delay", n.maxMergeDelay},
		{"open-timeout", n.openWithin},
		{"delete-heads-after", n.keepHeads},
		{"delete-tiles-after", n.keepTiles},
		{"scrub-interval", n.scrubInterval},
		{"scrub-period", n.scrubPeriod},
		{"max-clock-skew", n.maxSkew},
	} {
		if err := settingsfile.Positive(of.name, of.value); err != nil {
			return err
		}
	}
	return nil
}

// validateLimits checks the limits of clients and steps, and sets the one for proofs by address.
func (s *settings) validateLimits() error {
	n, l := &s.node, &s.limits
	// One address may use a quarter of the proofs.
	l.ProofsByAddress = max(n.maxProofs/4, 1)
	for _, of := range []struct {
		name       string
		value, min int64
	}{
		{"max-connections", int64(l.Connections), 1},
		{"max-connections-per-address", int64(l.ConnectionsByAddress), 1},
		{"submission-rate-per-address", int64(l.SubmissionRate), 0},
		{"read-rate-per-address", int64(l.ReadRate), 0},
		{"max-checks", int64(l.Checks), 1},
		{"max-queued-bytes", l.WaitingBytes, httpd.MaxBody},
		{"max-response-bytes", l.AnswerBytes, blob.MaxObject},
		{"max-queue", int64(n.maxQueue), 1},
		{"max-batch", int64(n.maxBatch), 1},
		{"max-write-rate", int64(n.maxWritten), 1},
		{"max-proofs", int64(n.maxProofs), 1},
	} {
		if of.value < of.min {
			return fmt.Errorf("--%s %d is too small (write at least %d, or leave %s out)", of.name, of.value, of.min, of.name)
		}
	}
	return nil
}

// setDefaultStores sets the addresses of stores and the names of files that follow from the folder, and checks that
// they are possible with several nodes.
func (n *node) setDefaultStores() error {
	for _, address := range []struct {
		of   *string
		text string
	}{
		{&n.store, "folder:" + filepath.Join(n.folder, "objects")},
		{&n.lock, "file:" + filepath.Join(n.folder, "register")},
		{&n.index, "leveldb:" + filepath.Join(n.folder, "index")},
	} {
		if *address.of == "" {
			*address.of, n.makesFolder = address.text, true
		}
	}
	if n.guardState == "" && n.signerSocket == "" {
		n.guardState = "file:" + beside(n.folder, ".guard")
	}
	if n.latestHead == "" {
		n.latestHead = beside(n.folder, ".latest-head")
	}
	n.namedDay = strings.TrimSuffix(n.latestHead, ".latest-head") + ".day"
	if err := n.peers.check(); err != nil {
		return err
	}
	if n.peers.isSet() && strings.HasPrefix(n.index, "leveldb:") {
		return errors.New("--nodes-address: several nodes must share one index, and only one process can use a folder: " +
			"use PostgreSQL (--index postgres://HOST/DATABASE?log=NAME)")
	}
	if strings.HasPrefix(n.index, "sqlite:") {
		return fmt.Errorf("--index: %w", blob.CheckIndex(n.index))
	}
	return nil
}

// checkMonitoringURL returns an error if a URL cannot be a monitoring prefix (C2SP static-ct-api, "Parameters"), to
// which readers append paths.
func checkMonitoringURL(text string) error {
	at, err := url.Parse(text)
	if err != nil || at.Scheme != "https" || at.Host == "" || at.User != nil || at.RawQuery != "" || at.Fragment != "" ||
		!strings.HasSuffix(at.Path, "/") {
		return fmt.Errorf("--monitoring-url %q is not an https URL that ends with a slash "+
			"(write for example https://read.log.example/2027h1/)", text)
	}
	return nil
}

// validateMergeDelay returns an error for a merge delay that a log list cannot have, and for a refresh interval with
// which an idle log would break the merge delay (RFC 6962, section 3.5). It sets the default of the refresh interval.
func (n *node) validateMergeDelay() error {
	if n.maxMergeDelay%time.Second != 0 {
		return fmt.Errorf("--max-merge-delay %v is not a whole number of seconds, which a log list needs "+
			"(write for example 1m)", n.maxMergeDelay)
	}
	if n.refresh == 0 {
		n.refresh = n.maxMergeDelay / 2
	}
	if n.refresh >= n.maxMergeDelay {
		return fmt.Errorf("--refresh-interval %v is not below --max-merge-delay %v, "+
			"so an idle log would serve heads that are older than it publishes (leave refresh-interval out)",
			n.refresh, n.maxMergeDelay)
	}
	return nil
}

// checkOrigin returns an error if a name cannot be a log's origin. An origin is the URL of the submission prefix,
// without the scheme and without a slash at the end (C2SP static-ct-api). It is signed with each head, so it cannot be
// changed later.
func checkOrigin(origin string) error {
	wrong := func(why, remedy string) error { return fmt.Errorf("--origin %q: %s (%s)", origin, why, remedy) }
	switch {
	case strings.Contains(origin, "://"):
		return wrong("it has a scheme", "leave https:// out")
	case strings.HasPrefix(origin, "/") || strings.HasSuffix(origin, "/"):
		return wrong("it begins or ends with a slash", "leave that out")
	case strings.ContainsAny(origin, "+?#"):
		return wrong("it has a character that a submission prefix cannot have", "leave +, ? and # out")
	}
	for _, sign := range origin {
		if sign <= ' ' || sign > '~' {
			return wrong("it has a space or a character that is not ASCII", "write a domain name in its xn-- form")
		}
	}
	return nil
}

// checkListeners returns an error unless each address is a host and a port, and no two are the same.
func checkListeners(addresses ...string) error {
	taken := map[string]bool{}
	for _, address := range addresses {
		if address == "" {
			continue
		}
		_, port, err := net.SplitHostPort(address)
		if err != nil {
			return fmt.Errorf("%q is not an address to listen at: %w (write HOST:PORT)", address, err)
		}
		number, err := net.LookupPort("tcp", port)
		if err != nil {
			return fmt.Errorf("%q is not an address to listen at: %w (a port is 0 to 65535)", address, err)
		}
		if number != 0 && taken[address] {
			return fmt.Errorf("two listeners have the address %s (--listen, --operator-listen and --nodes-listen must differ)",
				address)
		}
		taken[address] = true
	}
	return nil
}

// validateWitnesses sets the defaults of the quorums, and checks that they are possible.
func (n *node) validateWitnesses() error {
	q := &n.quorums
	if len(n.witnesses) == 0 {
		if *q != (witness.Quorums{}) {
			return errors.New("--publish-quorum, --start-quorum and --faulty-witnesses need --witnesses")
		}
		return nil
	}
	for _, of := range []*int{&q.Publish, &q.Start} {
		if *of == 0 {
			*of = (len(n.witnesses)+q.Faults)/2 + 1
		}
	}
	if err := witness.CheckDistinct(n.witnesses); err != nil {
		return err
	}
	return q.Check(len(n.witnesses))
}

// beside returns the path of a file that belongs to a log's folder but is not in it. So a copy of the folder does not
// have the file, and an older copy of the folder does not replace it.
func beside(folder, kind string) string {
	if whole, err := filepath.Abs(folder); err == nil && filepath.Base(filepath.Clean(folder)) != filepath.Base(whole) {
		// The names . and .. are replaced by the whole path, because a file beside them needs the folder's name.
		folder = whole
	}
	return filepath.Clean(folder) + kind
}
