package main

import (
	"context"
	"encoding/pem"
	"errors"
	"flag"
	"fmt"
	"io"
	"os"
	"os/signal"
	"strings"
	"syscall"
	"time"

	"wagtenib/internal/blob"
	"wagtenib/internal/command/version"
	"wagtenib/internal/ct"
	"wagtenib/internal/log/archive"
	"wagtenib/internal/log/chain"
	"wagtenib/internal/logclient"
	"wagtenib/internal/tiles"
)

// archivePage is what `ctserve archive --help` prints before the flags.
const archivePage = `ctserve archive URL reads the log at URL by the calls of RFC 6962 (get-sth, get-entries,
get-sth-consistency), and writes its entries as tiles into a folder, up to the newest head that the log signed. Each
part is written after the log has proved that it belongs to the signed tree. After a stop for any reason, the same
command goes on. The exit status is 0 if the archive is complete, 1 if it is not, and 2 if the arguments are wrong.
ctserve --archive FOLDER serves it.`

// archiveFlags are the flags of `ctserve archive`.
type archiveFlags struct{ key, folder, origin, ca, contact string }

func (a *archiveFlags) add(to *flag.FlagSet) {
	to.StringVar(&a.key, "key", "", "`file` in PEM with the log's public key")
	to.StringVar(&a.folder, "folder", "", "`folder` of the archive. It must be empty, or have an archive of this log")
	to.StringVar(&a.origin, "origin", "", "`name` of the log in the checkpoint (default URL without its scheme)")
	to.StringVar(&a.ca, "ca-file", "", "`file` in PEM with the CA of the log's TLS certificate (default: the CAs of the "+
		"system)")
	to.StringVar(&a.contact, "contact", "", "`address` at which the operator of the log reaches you, for the header "+
		"User-Agent")
}

// progressInterval is the minimum time between two lines about the progress of an archive.
const progressInterval = 10 * time.Second

// runArchive archives a log.
func runArchive(arguments []string, stdout, stderr io.Writer) error {
	flags := commandFlags("archive", archivePage, stderr)
	var given archiveFlags
	given.add(flags)
	if err := parseFlags(flags, addressLast(arguments), 1); err != nil {
		return err
	}
	of, options, err := given.log(flags.Arg(0))
	if err != nil {
		return fmt.Errorf("%w: %v", errUsage, err)
	}
	var lastLine time.Time
	options.Progress = func(entries, size uint64) {
		if now := time.Now(); now.Sub(lastLine) >= progressInterval || entries == size {
			lastLine = now
			fmt.Fprintf(stdout, "%d of %d entries\n", entries, size)
		}
	}
	ctx, stop := signal.NotifyContext(context.Background(), syscall.SIGTERM, syscall.SIGINT)
	defer stop()
	head, err := archive.Make(ctx, given.folder, of, options)
	if err != nil {
		return err
	}
	fmt.Fprintf(stdout, "complete: %d entries, root %x, signed at %s\n", head.TreeSize, head.Root,
		time.UnixMilli(int64(head.Timestamp)).UTC().Format(time.RFC3339))
	return nil
}

// addressLast returns the arguments with the address after the flags. On the command line the address may be before
// them, as on the pages.
func addressLast(arguments []string) []string {
	if len(arguments) > 0 && !strings.HasPrefix(arguments[0], "-") {
		return append(append([]string{}, arguments[1:]...), arguments[0])
	}
	return arguments
}

// log returns the log to be archived, and the options to read it. The error names the flag that is wrong.
func (a *archiveFlags) log(address string) (of archive.Log, options archive.Options, err error) {
	if a.key == "" || a.folder == "" {
		return of, options, errors.New("archive needs --key and --folder")
	}
	_, host, found := strings.Cut(address, "://")
	if !found {
		return of, options, fmt.Errorf("URL %q is not an address (write https://HOST/PATH)", address)
	}
	of = archive.Log{URL: address, Origin: a.origin}
	if of.Origin == "" {
		of.Origin = strings.TrimSuffix(host, "/")
	}
	if err := checkOrigin(of.Origin); err != nil {
		return of, options, err
	}
	text, err := os.ReadFile(a.key)
	if err != nil {
		return of, options, fmt.Errorf("--key: %w", err)
	}
	block, _ := pem.Decode(text)
	if block == nil || block.Type != "PUBLIC KEY" {
		return of, options, fmt.Errorf("--key: %s has no public key in PEM", a.key)
	}
	if _, err := ct.ParseKey(block.Bytes); err != nil {
		return of, options, fmt.Errorf("--key: %s: %w", a.key, err)
	}
	of.PublicKey = block.Bytes
	options.Client, err = logclient.OptionsOf("ctserve-archive", version.Number(), a.ca, a.contact)
	return of, options, err
}

// openArchive opens an archive as a log that accepts no submissions.
func openArchive(ctx context.Context, n node) (*opened, error) {
	of, err := archive.Open(ctx, n.archive)
	if err != nil {
		return nil, err
	}
	return &opened{log: of, proofs: tiles.NewProver(of.Object, n.maxProofs), key: of.Key(), calls: &blob.Calls{},
		close: of.Close}, nil
}

// archiveNotice is the notice of an archive, unless the operator sets another one.
const archiveNotice = "This is an archive of a log that has ended. " +
	"It takes no submissions, and its tree head is the last one that the log signed."

// validateArchive fills in the settings of an archive, which has no key, no roots and no other stores.
func (s *settings) validateArchive() error {
	n := &s.node
	if n.archive == "" {
		return nil
	}
	for name, given := range map[string]string{"origin": n.origin, "signing-key": n.signingKey,
		"signer-socket": n.signerSocket, "roots": strings.Join(s.roots.Paths, ""), "store": n.store, "lock": n.lock,
		"index": n.index} {
		if given != "" {
			return fmt.Errorf("--archive has everything of the log: remove --%s", name)
		}
	}
	if n.create || n.isPublic || n.peers.isSet() || len(n.witnesses) > 0 {
		return errors.New("--archive makes no tree heads: remove --create, --public-store, --witnesses and the settings " +
			"of other nodes")
	}
	s.readOnly = true
	if s.notice == "" {
		s.notice = archiveNotice
	}
	var err error
	n.origin, err = archive.OriginOf(n.archive)
	return err
}

// loadRoots reads the roots of the log. An archive has none.
func (s *settings) loadRoots() (*chain.Roots, error) {
	if s.node.archive != "" {
		return chain.NoRoots(), nil
	}
	return s.roots.Load()
}

// checkArchive opens the archive that the settings name, and returns a line that describes it.
func checkArchive(n node) (string, error) {
	ctx, cancel := context.WithTimeout(context.Background(), n.openWithin)
	defer cancel()
	of, err := archive.Open(ctx, n.archive)
	if err != nil {
		return "", err
	}
	defer of.Close()
	return fmt.Sprintf("%s, %d entries", n.archive, of.Metrics().Entries), nil
}
