package main

import (
	"context"
	"crypto/ecdsa"
	"crypto/elliptic"
	"crypto/rand"
	"crypto/sha256"
	"crypto/x509"
	"encoding/base64"
	"encoding/json"
	"encoding/pem"
	"errors"
	"flag"
	"fmt"
	"io"
	"os"
	"path/filepath"
	"strings"
	"time"

	"wagtenib/internal/blob"
	"wagtenib/internal/command/settingsfile"
	"wagtenib/internal/command/version"
	"wagtenib/internal/log/httpd"
	"wagtenib/internal/log/service"
	"wagtenib/internal/log/signer"
)

// commands has the commands of ctserve, except serving, by the first argument.
var commands = map[string]func(arguments []string, stdout, stderr io.Writer) error{
	"key":        runKey,
	"list-entry": runListEntry,
	"check":      runCheck,
	"index":      runIndex,
	"clock":      runClock,
	"archive":    runArchive,
	"roots":      runRoots,
}

// runCommand runs a command, and returns the exit status: 0 if it succeeds, 1 if it fails, and 2 if the arguments are
// wrong.
func runCommand(name string, arguments []string, stdout, stderr io.Writer) int {
	err := commands[name](arguments, stdout, stderr)
	switch {
	case err == nil || errors.Is(err, flag.ErrHelp):
		return 0
	case errors.Is(err, errUsage):
		fmt.Fprintln(stderr, err)
		return 2
	default:
		fmt.Fprintln(stderr, "ctserve:", err)
		return 1
	}
}

// commandFlags returns the flags of one command. Its help prints the page and then the flags.
func commandFlags(name, page string, stderr io.Writer) *flag.FlagSet {
	return settingsfile.Flags("ctserve "+name, page, stderr)
}

// parseArguments parses flags up to the first argument that is no flag. The error wraps flag.ErrHelp or errUsage.
func parseArguments(flags *flag.FlagSet, arguments []string) error {
	err := settingsfile.ParseArguments(flags, arguments)
	if err != nil && !errors.Is(err, flag.ErrHelp) {
		return fmt.Errorf("%w: %v", errUsage, err)
	}
	return err
}

// parseFlags parses flags, after which there must be this number of other arguments.
func parseFlags(flags *flag.FlagSet, arguments []string, others int) error {
	if err := parseArguments(flags, arguments); err != nil {
		return err
	}
	if flags.NArg() != others {
		return fmt.Errorf("%w: wrong number of arguments (see %s --help)", errUsage, flags.Name())
	}
	return nil
}

// parseSettings parses the arguments of a command that needs a log's settings: a config file or flags. The help of the
// command is its page. It does not list the flags, because `ctserve --help` does.
func parseSettings(name, page string, arguments []string, stderr io.Writer) (*settings, error) {
	flags := flag.NewFlagSet("ctserve "+name, flag.ContinueOnError)
	flags.SetOutput(stderr)
	flags.Usage = func() { fmt.Fprintln(stderr, page) }
	if len(arguments) == 1 && !strings.HasPrefix(arguments[0], "-") {
		arguments = []string{"--config", arguments[0]}
	}
	return parseTo(flags, arguments)
}

// runKey makes a log's key in a new file, or with --show, reads an existing one. It prints the log's id (RFC 6962,
// section 3.2) and its public key.
func runKey(arguments []string, stdout, stderr io.Writer) error {
	flags := commandFlags("key",
		"ctserve key FILE creates a log's P-256 key, and prints the log's id and public key. FILE must not exist yet. "+
			"Only its owner may read it.", stderr)
	show := flags.Bool("show", false, "show the id and the public key of the existing key in FILE, and make no key")
	if err := parseFlags(flags, arguments, 1); err != nil {
		return err
	}
	path := flags.Arg(0)
	if !*show {
		if err := makeKey(path); err != nil {
			return err
		}
	}
	key, err := signer.OpenKey(path)
	if err != nil {
		return err
	}
	defer key.Close()
	public := key.Key()
	id := sha256.Sum256(public)
	fmt.Fprintf(stdout, "log id      %s\npublic key  %s\n%s",
		base64.StdEncoding.EncodeToString(id[:]), base64.StdEncoding.EncodeToString(public),
		pem.EncodeToMemory(&pem.Block{Type: "PUBLIC KEY", Bytes: public}))
	return nil
}

// makeKey writes a new private key into a new file, and syncs it to the disk. After an error there is no such file.
func makeKey(path string) error {
	private, err := ecdsa.GenerateKey(elliptic.P256(), rand.Reader)
	if err != nil {
		return err
	}
	der, err := x509.MarshalPKCS8PrivateKey(private)
	if err != nil {
		return err
	}
	file, err := os.OpenFile(path, os.O_WRONLY|os.O_CREATE|os.O_EXCL, 0o400)
	if err != nil {
		return err
	}
	_, err = file.Write(pem.EncodeToMemory(&pem.Block{Type: "PRIVATE KEY", Bytes: der}))
	if err == nil {
		err = file.Sync()
	}
	if closed := file.Close(); err == nil {
		err = closed
	}
	if err == nil {
		err = syncFolder(filepath.Dir(path))
	}
	if err != nil {
		os.Remove(path)
	}
	return err
}

// syncFolder syncs the names in a folder to the disk.
func syncFolder(path string) error {
	folder, err := os.Open(path)
	if err != nil {
		return err
	}
	defer folder.Close()
	return folder.Sync()
}

// listed is the entry of a tiled log in a log list (log list schema v3, "tiled_logs").
type listed struct {
	Description   string    `json:"description"`
	LogID         string    `json:"log_id"`
	Key           string    `json:"key"`
	SubmissionURL string    `json:"submission_url"`
	MonitoringURL string    `json:"monitoring_url"`
	MMD           int       `json:"mmd"`
	Interval      *interval `json:"temporal_interval,omitempty"`
}

type interval struct {
	Start string `json:"start_inclusive"`
	End   string `json:"end_exclusive"`
}

type operator struct {
	Name      string   `json:"name"`
	Email     []string `json:"email"`
	Logs      []string `json:"logs"`
	TiledLogs []listed `json:"tiled_logs"`
}

// runListEntry prints a log's entry for a log list, which it makes from the log's settings.
func runListEntry(arguments []string, stdout, stderr io.Writer) error {
	flags := commandFlags("list-entry",
		"ctserve list-entry --config FILE prints a log's entry for a log list (v3, JSON), made from its settings.", stderr)
	config := flags.String("config", "", "the log's config `file`")
	name := flags.String("operator", "", "the operator's `name`")
	email := flags.String("email", "", "comma-separated mail `addresses` of the operator")
	publicAt := flags.String("key", "", "`file` with the log's public key in PEM, if the settings have no signing-key")
	if err := parseFlags(flags, arguments, 0); err != nil {
		return err
	}
	if *config == "" || *name == "" || *email == "" {
		return fmt.Errorf("%w: list-entry needs --config, --operator and --email", errUsage)
	}
	s, err := parse([]string{"--config", *config}, stderr)
	if err != nil {
		return err
	}
	public, err := publicKey(s, *publicAt)
	if err != nil {
		return err
	}
	one := entryOf(s, public)
	out := json.NewEncoder(stdout)
	out.SetIndent("", "  ")
	return out.Encode(map[string][]operator{"operators": {{*name, strings.Split(*email, ","), []string{}, []listed{one}}}})
}

// entryOf returns a log's entry for a log list. The origin is the submission prefix without its scheme (C2SP
// static-ct-api, "Parameters").
func entryOf(s *settings, public []byte) listed {
	id := sha256.Sum256(public)
	one := listed{
		Description:   s.node.origin,
		LogID:         base64.StdEncoding.EncodeToString(id[:]),
		Key:           base64.StdEncoding.EncodeToString(public),
		SubmissionURL: "https://" + s.node.origin + "/",
		MonitoringURL: s.monitoringURL,
		MMD:           int(s.node.maxMergeDelay / time.Second),
	}
	if from, to := s.rules.Window.From, s.rules.Window.To; !from.IsZero() && !to.IsZero() {
		one.Interval = &interval{from.UTC().Format(time.RFC3339), to.UTC().Format(time.RFC3339)}
	}
	return one
}

// aboutOf returns what a log publishes about itself. If its key is not known, that is only the merge delay.
func aboutOf(s *settings, public []byte) (httpd.About, error) {
	if public == nil {
		return httpd.About{MaxMergeDelay: s.node.maxMergeDelay}, nil
	}
	entry, err := json.MarshalIndent(struct {
		listed
		Version string `json:"version"`
		Notice  string `json:"notice,omitempty"`
	}{entryOf(s, public), version.Number() + " (commit " + version.Commit() + ")", s.notice}, "", "  ")
	about := httpd.About{Key: public, Entry: append(entry, '\n'), MaxMergeDelay: s.node.maxMergeDelay}
	if s.node.archive != "" {
		about.MaxMergeDelay = 0
	}
	return about, err
}

// publicKey returns the log's public key, from a file or from its signing key.
func publicKey(s *settings, path string) ([]byte, error) {
	if path == "" {
		if s.node.signingKey == "" {
			return nil, fmt.Errorf("%w: the settings name no signing-key: give --key", errUsage)
		}
		key, err := signer.OpenKey(s.node.signingKey)
		if err != nil {
			return nil, err
		}
		defer key.Close()
		return key.Key(), nil
	}
	text, err := os.ReadFile(path)
	if err != nil {
		return nil, err
	}
	block, _ := pem.Decode(text)
	if block == nil || block.Type != "PUBLIC KEY" {
		return nil, fmt.Errorf("%s has no public key in PEM", path)
	}
	key, err := x509.ParsePKIXPublicKey(block.Bytes)
	if err != nil {
		return nil, fmt.Errorf("%s: %w", path, err)
	}
	if of, ok := key.(*ecdsa.PublicKey); !ok || of.Curve != elliptic.P256() {
		return nil, fmt.Errorf("%s has no P-256 key", path)
	}
	return block.Bytes, nil
}

// runVersion prints the version of this build.
func runVersion(stdout io.Writer) int {
	fmt.Fprint(stdout, version.Line("ctserve"))
	return 0
}

// indexPage is what `ctserve index --help` prints.
const indexPage = `ctserve index FILE builds the deduplication index of the log with the settings FILE again, from
the log's tiles, the newest entries first. After each part it prints how many entries are left. If the index is in a
folder, stop the log first. If you stop the command after its first line, the log builds the rest when it runs. Run it as
the user of the log, who must own the index's files. Instead of FILE you can give the settings as flags
(ctserve --help). The exit status is 0 if the index has all entries, 1 if it does not, and 2 if a
setting or an argument is refused.`

// runIndex builds a log's deduplication index again from its tiles. The log may run at the same time if the index is in
// PostgreSQL.
func runIndex(arguments []string, stdout, stderr io.Writer) (err error) {
	s, err := parseSettings("index", indexPage, arguments, stderr)
	if err != nil {
		return err
	}
	opening, cancel := context.WithTimeout(context.Background(), s.node.openWithin)
	defer cancel()
	if err := blob.CheckObjectsExist(s.node.store); err != nil {
		return err
	}
	of, err := openStores(opening, s.node)
	if err != nil {
		return err
	}
	defer of.close()
	return service.RebuildIndex(context.Background(), of.Stores, func(left uint64) {
		fmt.Fprintf(stdout, "%d entries are left\n", left)
	})
}

// runClock confirms the day for a log that was stopped for more than one day, on a machine with no other source of
// time. The log may run in the meantime.
func runClock(arguments []string, stdout, stderr io.Writer) error {
	flags := commandFlags("clock",
		"ctserve clock FILE DAY confirms the day (2026-11-27) for the log with the settings FILE. "+
			"Read the day from another clock than this machine's. "+
			"On that day the log continues, although its newest head is older than a day "+
			"and neither the kernel nor another machine confirms the time.", stderr)
	if err := parseFlags(flags, arguments, 2); err != nil {
		return err
	}
	s, err := parse([]string{"--config", flags.Arg(0)}, stderr)
	if err != nil {
		return err
	}
	now := time.Now()
	if err := service.NameDay(s.node.namedDay, flags.Arg(1), now); err != nil {
		return err
	}
	fmt.Fprintf(stdout, "%s: on %s the log continues. This machine's clock says %s\n", s.node.origin, flags.Arg(1),
		now.UTC().Format(time.RFC3339))
	return nil
}
