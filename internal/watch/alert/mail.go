package alert

import (
	"bytes"
	"context"
	"crypto/rand"
	"encoding/hex"
	"errors"
	"fmt"
	"mime"
	"mime/quotedprintable"
	"net/mail"
	"os"
	"os/exec"
	"strings"
	"time"
)

// The bounds of a mail.
const (
	alertsPerMail = 50
	mailTimeout   = 2 * time.Minute
)

// Mail sends alerts as plain text. One mail has all alerts of a batch.
type Mail struct {
	from  string
	to    []string
	carry func(ctx context.Context, from string, to []string, message []byte) error
	now   func() time.Time
}

// NewMail returns an output that sends mail from an address to others. sendmail is the path of a program with the
// interface of sendmail, or smtp://HOST:PORT for a mail server of this machine.
func NewMail(from string, to []string, sendmail string) (*Mail, error) {
	for _, address := range append([]string{from}, to...) {
		if parsed, err := mail.ParseAddress(address); err != nil || parsed.Address != address ||
			strings.HasPrefix(address, "-") {
			return nil, fmt.Errorf("%q is no mail address (write NAME@HOST)", address)
		}
	}
	if len(to) == 0 {
		return nil, errors.New("mail has no address (write NAME@HOST)")
	}
	m := &Mail{from: from, to: to, now: time.Now}
	address, isServer, err := loopbackServer(sendmail)
	if err != nil {
		return nil, err
	}
	if isServer {
		m.carry = bySMTP(address)
		return m, nil
	}
	path, err := exec.LookPath(sendmail)
	if err != nil {
		return nil, fmt.Errorf("sendmail %q cannot be run: %w (install a program with the interface of sendmail, or write "+
			"smtp://127.0.0.1:25 for a mail server of this machine)", sendmail, err)
	}
	m.carry = bySendmail(path)
	return m, nil
}

// Name returns the name of this output, which no other output has.
func (m *Mail) Name() string { return "mail " + strings.Join(m.to, " ") }

// Batch returns the maximum number of alerts in one mail.
func (m *Mail) Batch() int { return alertsPerMail }

// Send sends the alerts in one mail.
func (m *Mail) Send(ctx context.Context, alerts []Alert) (sent, tried int, err error) {
	message, err := m.message(alerts)
	if err != nil {
		return 0, 0, err
	}
	limited, cancel := context.WithTimeout(ctx, mailTimeout)
	defer cancel()
	if err := m.carry(limited, m.from, m.to, message); err != nil {
		return 0, len(alerts), err
	}
	return len(alerts), len(alerts), nil
}

// message returns a mail (RFC 5322) whose text is quoted-printable, so that no byte of a certificate can end a line or
// a header.
func (m *Mail) message(alerts []Alert) ([]byte, error) {
	var text bytes.Buffer
	random := make([]byte, 16)
	if _, err := rand.Read(random); err != nil {
		return nil, err
	}
	header := func(name, value string) { fmt.Fprintf(&text, "%s: %s\r\n", name, value) }
	header("From", m.from)
	header("To", strings.Join(m.to, ", "))
	header("Subject", mime.QEncoding.Encode("utf-8", Subject(alerts)))
	header("Date", m.now().Format(time.RFC1123Z))
	header("Message-ID", fmt.Sprintf("<%s@ctwatch.invalid>", hex.EncodeToString(random)))
	header("Auto-Submitted", "auto-generated")
	header("MIME-Version", "1.0")
	header("Content-Type", "text/plain; charset=utf-8")
	header("Content-Transfer-Encoding", "quoted-printable")
	text.WriteString("\r\n")
	body := quotedprintable.NewWriter(&text)
	for i, alert := range alerts {
		between := ""
		if i > 0 {
			between = "\n\n"
		}
		if _, err := fmt.Fprintf(body, "%s%s\n\n%s", between, Line(alert), Paragraphs(alert)); err != nil {
			return nil, err
		}
	}
	if err := body.Close(); err != nil {
		return nil, err
	}
	return text.Bytes(), nil
}

// bySendmail returns a function that hands a mail to a program with the interface of sendmail.
func bySendmail(path string) func(context.Context, string, []string, []byte) error {
	return func(ctx context.Context, from string, to []string, message []byte) error {
		// A line with only a dot does not end the mail (-oi), and no address is taken for an option (--).
		command := exec.CommandContext(ctx, path, append([]string{"-oi", "-f", from, "--"}, to...)...)
		// Programs with the interface of sendmail expect the line ends of the system.
		command.Stdin = bytes.NewReader(bytes.ReplaceAll(message, []byte("\r\n"), []byte("\n")))
		stderr := &bounded{left: maxStderr}
		command.Stderr, command.WaitDelay = stderr, waitDelay
		if err := command.Run(); err != nil {
			return fmt.Errorf("%s: %w: %s%s", path, err, Safe(stderr.text.String()), sandboxHint())
		}
		return nil
	}
}

// sandboxHint returns a text for the failure of a sendmail that may need another group or user, which the process must
// not take (NoNewPrivileges). It returns "" if the process may.
func sandboxHint() string {
	status, err := os.ReadFile("/proc/self/status")
	if err != nil || !bytes.Contains(status, []byte("\nNoNewPrivs:\t1\n")) {
		return ""
	}
	return " (the sandbox keeps sendmail from its group or user: write sendmail smtp://127.0.0.1:25, or add the drop-in of " +
		"docs/WATCH.md)"
}
