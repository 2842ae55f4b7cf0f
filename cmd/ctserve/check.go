package main

import (
	"crypto/sha256"
	"encoding/base64"
	"fmt"
	"io"
	"os"
	"strings"

	"wagtenib/internal/blob"
	"wagtenib/internal/log/httpd"
	"wagtenib/internal/log/signer"
)

// checkPage is what `ctserve check --help` prints.
const checkPage = `ctserve check FILE examines the settings in FILE: the key, the roots, the TLS certificate, and the
form of the stores' addresses. It prints a line for each of them. It opens no store, and starts nothing. Instead of FILE
you can give the settings as flags (ctserve --help). The exit status is 0 if nothing is wrong, 1 if a line says WRONG,
and 2 if a setting or an argument is refused.`

// runCheck checks a log's settings and what they name: the key, the roots and the TLS certificate. It starts nothing.
// It checks all of them, and prints a line for each, with its first fault.
func runCheck(arguments []string, stdout, stderr io.Writer) error {
	s, err := parseSettings("check", checkPage, arguments, stderr)
	if err != nil {
		return err
	}
	c := &checks{to: stdout}
	c.report("origin", s.node.origin, nil)
	if s.node.archive != "" {
		description, err := checkArchive(s.node)
		c.report("archive", description, err)
		return c.result()
	}
	c.checkKey(s)
	c.checkRoots(s)
	c.report("max-merge-delay",
		fmt.Sprintf("%v, so a head is made at least each %v", s.node.maxMergeDelay, s.node.refresh), nil)
	if s.certificate != "" {
		_, err := httpd.LoadCertificate(s.certificate, s.key)
		c.report("tls-certificate", s.certificate, err)
	}
	c.reportGuard(s)
	c.checkStores(s)
	return c.result()
}

// checks prints the results of the checks, and counts the settings that are wrong.
type checks struct {
	to    io.Writer
	wrong int
}

// report prints the description of a setting, or the error that makes it wrong.
func (c *checks) report(name, description string, err error) {
	if err != nil {
		c.wrong++
		description = "WRONG: " + err.Error()
	}
	fmt.Fprintf(c.to, "%-16s %s\n", name, description)
}

// result returns an error if a setting is wrong.
func (c *checks) result() error {
	if c.wrong > 0 {
		return fmt.Errorf("wrong settings: %d (the lines with WRONG name them)", c.wrong)
	}
	return nil
}

// checkKey opens the log's key, or looks for the socket of its signer.
func (c *checks) checkKey(s *settings) {
	if s.node.signerSocket != "" {
		_, err := os.Stat(s.node.signerSocket)
		c.report("signer-socket", s.node.signerSocket, err)
		return
	}
	key, err := signer.OpenKey(s.node.signingKey)
	description := ""
	if err == nil {
		id := sha256.Sum256(key.Key())
		description = "log id " + base64.StdEncoding.EncodeToString(id[:])
		key.Close()
	}
	c.report("signing-key", description, err)
}

// checkRoots reads the roots, and prints those that are left out.
func (c *checks) checkRoots(s *settings) {
	roots, err := s.roots.Load()
	if err != nil {
		c.report("roots", "", err)
		return
	}
	c.report("roots", fmt.Sprintf("%d roots", len(roots.Certificates())), nil)
	for _, each := range roots.LeftOut() {
		c.report("roots", "left out: "+each.String(), nil)
	}
}

// reportGuard prints whether the signer of these settings has a guard.
func (c *checks) reportGuard(s *settings) {
	switch {
	case s.node.signerSocket != "":
	case s.node.isGuarded():
		c.report("guard", "on", nil)
	default:
		c.report("guard", "off: the signer signs whatever it is asked for", nil)
	}
}

// checkStores checks the addresses of the stores, without opening them, and the log's folder.
func (c *checks) checkStores(s *settings) {
	for _, address := range []struct {
		of, text string
		check    func(string) error
	}{
		{"store", s.node.store, blob.CheckObjects},
		{"lock", s.node.lock, blob.CheckLock},
		{"index", s.node.index, blob.CheckIndex},
		{"guard-state", s.node.guardState, blob.CheckLock},
	} {
		if address.text == "" {
			continue
		}
		// Only the kind is printed, because an address may have a password.
		kind, _, _ := strings.Cut(address.text, ":")
		c.report(address.of, kind+", not opened", address.check(address.text))
	}
	if about, err := os.Stat(s.node.folder); err == nil && !about.IsDir() {
		c.report("folder", "",
			fmt.Errorf("%s is not a folder (name a folder, or a path that does not exist yet)", s.node.folder))
	}
}
