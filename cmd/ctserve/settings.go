package main

import (
	"errors"
	"flag"
	"io"
	"net/netip"
	"strings"
	"time"

	"wagtenib/internal/command/settingsfile"
	"wagtenib/internal/log/chain"
	"wagtenib/internal/log/httpd"
	"wagtenib/internal/witness"
)

// fileRules are the rules of the config file.
var fileRules = settingsfile.Rules{Only: []string{"config"}}

// settings has the values of the command line and of the config file.
type settings struct {
	listen, operator, notice string
	monitoringURL            string
	certificate, key         string
	proxies                  []netip.Prefix
	roots                    chain.RootFiles
	rules                    chain.Rules
	anyPurpose               bool
	limits                   httpd.Limits
	endWithin                time.Duration
	logRequests, readOnly    bool
	node                     node
}

// node has the settings of the log itself.
type node struct {
	origin, signingKey string
	// guard says whether the signer has a guard. If it is nil, no setting says so, and the signer has one.
	guard                      *bool
	guardState, signerSocket   string
	folder, store, lock, index string
	// archive is the folder of an archive that is served instead of a log. It is empty for a log.
	archive                          string
	latestHead, namedDay             string
	maxSkew                          time.Duration
	synchronized                     bool
	interval, refresh, maxMergeDelay time.Duration
	openWithin                       time.Duration
	keepHeads, keepTiles             time.Duration
	scrubInterval, scrubPeriod       time.Duration
	maxQueue, maxBatch, maxProofs    int
	maxWritten                       int
	create, makesFolder, isPublic    bool
	allowPlaintext                   bool
	peers                            peers
	witnesses                        []witness.One
	quorums                          witness.Quorums
}

// isGuarded reports whether a guard approves what the signer signs.
func (n *node) isGuarded() bool { return n.guard == nil || *n.guard }

// hasRemoteStore reports whether a store is not in a folder or file of this machine.
func (n *node) hasRemoteStore() bool {
	return !strings.HasPrefix(n.store, "folder:") || !strings.HasPrefix(n.lock, "file:") ||
		!strings.HasPrefix(n.index, "leveldb:")
}

// errUsage reports that a command line or a config file is wrong.
var errUsage = errors.New("ctserve")

// page is the text that --help prints before the settings.
const page = `ctserve serves a Certificate Transparency log over HTTP. Each setting is a flag, or a line 'name value' in
the file that --config names.

Other commands, each with --help:
  ctserve signer            runs the process that has the log's key
  ctserve key FILE          makes a key
  ctserve check FILE        checks settings without starting
  ctserve list-entry        writes the log's entry for a log list
  ctserve index FILE        builds the deduplication index again from the tiles
  ctserve clock FILE DAY    says which day it is, if only the machine's clock says so
  ctserve roots TABLE..     writes the roots of CCADB's tables into the folder of roots
  ctserve archive URL       makes an archive of a log of RFC 6962 that ends`

// parse parses the command line, and the config file that it names. If both have a setting, the command line counts.
func parse(arguments []string, help io.Writer) (*settings, error) {
	return parseTo(settingsfile.Flags("ctserve", page, help), arguments)
}

// parseTo defines the settings as flags of a program or a command, and parses its arguments as parse does.
func parseTo(flags *flag.FlagSet, arguments []string) (*settings, error) {
	s := &settings{limits: httpd.DefaultLimits()}
	flags.String("config", "", "`file` with a line 'name value' for each of these settings. A comment begins with #")
	s.frontFlags(flags)
	limitFlags(flags, &s.limits)
	s.node.storeFlags(flags)
	s.node.paceFlags(flags)
	s.node.witnessFlags(flags)
	s.node.peers.flags(flags)
	if err := fileRules.ParseAndValidate(flags, arguments, s.validate, errUsage); err != nil {
		return nil, err
	}
	return s, nil
}

// frontFlags defines the settings of the HTTP server and of the certificates that the log accepts.
func (s *settings) frontFlags(flags *flag.FlagSet) {
	flags.StringVar(&s.listen, "listen", "127.0.0.1:8618", "`address` for clients")
	flags.StringVar(&s.operator, "operator-listen", "127.0.0.1:8619",
		"`address` for /metrics, /healthz and /readyz. If it is empty, they are not served")
	flags.StringVar(&s.monitoringURL, "monitoring-url", "",
		"`URL` below which the log is read, if it differs from the one for submissions. "+
			"/log.v3.json and list-entry have it (default https://ORIGIN/)")
	flags.StringVar(&s.notice, "notice", "", "`text` that the log's page and /log.v3.json show")
	flags.StringVar(&s.certificate, "tls-certificate", "",
		"`file` with the TLS certificate chain in PEM. It is read again at SIGHUP. Without it, the log serves plain HTTP")
	flags.StringVar(&s.key, "tls-key", "", "`file` with the key of the TLS certificate in PEM")
	flags.Func("trusted-proxies", "comma-separated `prefixes` of the proxies whose X-Forwarded-For header is trusted",
		func(text string) (err error) {
			s.proxies, err = prefixes(text)
			return err
		})
	flags.Func("roots", "comma-separated `files` with the log's roots: PEM, CSV of CCADB, or folders with such files. "+
		"They are read again at SIGHUP",
		func(text string) error {
			s.roots.Paths = strings.Split(text, ",")
			return nil
		})
	flags.StringVar(&s.roots.Without, "excluded-roots", "",
		"`file` with the SHA-256 fingerprint of one root on each line. These roots are not accepted")
	flags.Func("not-after-start",
		"`time` (2026-07-01 or 2026-07-01T00:00:00Z). Certificates that expire before it are refused",
		timestamp(&s.rules.Window.From))
	flags.Func("not-after-limit", "`time`. Certificates that expire at this time or later are refused",
		timestamp(&s.rules.Window.To))
	flags.BoolVar(&s.anyPurpose, "any-purpose", false,
		"accept certificates of any purpose. Without it, those whose extended key usage excludes TLS servers are refused")
	flags.BoolVar(&s.rules.RefuseExpired, "refuse-expired", false, "refuse certificates that have expired")
	flags.BoolVar(&s.rules.RefuseNotYetValid, "refuse-not-yet-valid", false,
		"refuse certificates whose validity has not begun")
	flags.DurationVar(&s.endWithin, "shutdown-timeout", 30*time.Second,
		"time after SIGTERM within which waiting clients are still answered")
	flags.BoolVar(&s.readOnly, "read-only", false,
		"refuse submissions with 403 read-only. Heads are still made, and reads continue")
	flags.BoolVar(&s.logRequests, "log-requests", false,
		"log every request, and not only those that fail because of the log")
}

// limitFlags defines the limits for clients.
func limitFlags(flags *flag.FlagSet, l *httpd.Limits) {
	flags.IntVar(&l.Connections, "max-connections", l.Connections, "maximum number of connections at the same time")
	flags.IntVar(&l.ConnectionsByAddress, "max-connections-per-address", l.ConnectionsByAddress,
		"maximum number of connections of one address or one /64 at the same time. "+
			"For a client behind a trusted proxy it bounds requests")
	flags.Func("submitters",
		"comma-separated `prefixes`, each with the number of connections (behind a proxy: requests) "+
			"that its addresses may have together, instead of max-connections-per-address: "+
			"203.0.113.0/24=512,2001:db8::/32=512",
		func(text string) (err error) {
			l.Submitters, err = submitters(text)
			return err
		})
	flags.IntVar(&l.SubmissionRate, "submission-rate-per-address", 0,
		"maximum number of submissions of one address or one /64 in a second, with a burst of ten seconds. "+
			"0: no bound. Submitters have none")
	flags.IntVar(&l.ReadRate, "read-rate-per-address", 0, "the same for proofs and get-entries")
	flags.IntVar(&l.Checks, "max-checks", l.Checks, "maximum number of chains that are checked at the same time")
	flags.Int64Var(&l.WaitingBytes, "max-queued-bytes", l.WaitingBytes,
		"maximum number of bytes of all submissions that are being read or are waiting. "+
			"One address may have an eighth of it, and at least 1 MiB")
	flags.Int64Var(&l.AnswerBytes, "max-response-bytes", l.AnswerBytes,
		"maximum number of bytes of all objects that are being read for responses or sent. "+
			"One address may have an eighth of it, and at least 65 MiB")
	flags.DurationVar(&l.Headers, "header-timeout", l.Headers, "time within which the headers of a request must arrive")
	flags.DurationVar(&l.Request, "request-timeout", l.Request, "time within which a request must arrive with its body")
	flags.DurationVar(&l.Submission, "submission-timeout", l.Submission,
		"time after which a waiting submission is answered with 503")
	flags.DurationVar(&l.Answer, "response-timeout", l.Answer, "time within which a client must read a response")
	flags.DurationVar(&l.Idle, "idle-timeout", l.Idle, "time after which an idle connection is closed")
}

// storeFlags defines the settings of the log's name, its key and its stores.
func (n *node) storeFlags(flags *flag.FlagSet) {
	flags.StringVar(&n.origin, "origin", "", "`name` of the log in checkpoints, for example log.example/2027h1")
	flags.StringVar(&n.signingKey, "signing-key", "",
		"`file` with the log's P-256 key in PEM, which only its owner may have the permission to read, or a PKCS#11 URI: "+
			"pkcs11:token=LABEL;object=LABEL?module-path=PATH&pin-source=file:PATH")
	flags.BoolFunc("guard",
		"have the guard, which is proved code, approve what is signed (default true). "+
			"Without it, the signer signs everything that it is asked to sign",
		boolean(&n.guard))
	flags.StringVar(&n.guardState, "guard-state", "",
		"`address` of the guard's state: file:PATH, etcd://HOST:PORT/PREFIX, postgres://HOST/DATABASE?log=NAME "+
			"(default FOLDER.guard, beside the folder)")
	flags.StringVar(&n.signerSocket, "signer-socket", "",
		"`socket` of a running signer (ctserve signer --help), instead of signing-key, guard and guard-state")
	flags.StringVar(&n.folder, "folder", "ct-log",
		"`folder` for the objects, the lock and the index, if no other addresses are given")
	flags.StringVar(&n.store, "store", "", "`address` of the objects: folder:PATH, s3://HOST/BUCKET")
	flags.StringVar(&n.lock, "lock", "",
		"`address` of the lock, which has the log's newest state: "+
			"file:PATH, etcd://HOST:PORT/PREFIX, postgres://HOST/DATABASE?log=NAME")
	flags.StringVar(&n.index, "index", "",
		"`address` of the deduplication index: leveldb:PATH, postgres://HOST/DATABASE?log=NAME")
	plaintextFlag(flags, &n.allowPlaintext)
	flags.StringVar(&n.archive, "archive", "",
		"`folder` of an archive of another log (ctserve archive --help), which is served read-only. "+
			"The archive has the log's key, origin and last head, so it replaces these settings and the stores")
	flags.StringVar(&n.latestHead, "latest-head", "",
		"`file` with the latest tree head that this node saw. A log that is older is refused. "+
			"It must be on this machine, and in no backup of the stores (default FOLDER.latest-head, beside the folder)")
	flags.BoolVar(&n.isPublic, "public-store", false,
		"have the log read from the store itself (a bucket or folder behind a web server or CDN): "+
			"also write checkpoint and log.v3.json there, and compress data tiles in S3. All nodes must have the same value")
	flags.BoolVar(&n.create, "create", false,
		"create the log if there is none. Without it, ctserve does not start with an empty lock")
	flags.DurationVar(&n.openWithin, "open-timeout", 30*time.Second, "time within which the stores must open")
}

// plaintextFlag defines the setting that allows stores on other machines without TLS.
func plaintextFlag(flags *flag.FlagSet, allow *bool) {
	flags.BoolVar(allow, "allow-plaintext", false,
		"call stores on other machines without TLS. Everyone on the way can then read and change what is stored, and "+
			"the passwords")
}

// paceFlags defines the settings for the clock, the intervals and the limits of a node.
func (n *node) paceFlags(flags *flag.FlagSet) {
	flags.DurationVar(&n.maxSkew, "max-clock-skew", 10*time.Second,
		"maximum difference of the machine's clock from the newest head, the stores' machines, "+
			"the other nodes and the elapsed time. Beyond it, submissions are refused")
	flags.BoolVar(&n.synchronized, "require-synchronized-clock", false,
		"refuse submissions until the kernel reports that its clock is synchronized (timedatectl)")
	flags.Func("interval",
		"minimum `duration` between two heads. 50ms means at most twenty a second. "+
			"By default, 50ms with witnesses and with stores on other machines, and 5ms for a folder",
		positiveDuration(&n.interval))
	flags.DurationVar(&n.maxMergeDelay, "max-merge-delay", time.Minute,
		"maximum merge delay (MMD) that the log publishes, in whole seconds. No head that the log serves is older")
	flags.Func("refresh-interval",
		"`age` of the newest head at which a head without new entries is made. "+
			"It must be below max-merge-delay (default half of it)",
		positiveDuration(&n.refresh))
	flags.DurationVar(&n.keepHeads, "delete-heads-after", time.Hour,
		"age of a head at which older heads are deleted. After ten seconds, one head in each five seconds is kept")
	flags.DurationVar(&n.keepTiles, "delete-tiles-after", 5*time.Minute,
		"age of a full tile at which its partial tiles are deleted. "+
			"A longer time than delete-heads-after counts as delete-heads-after")
	flags.DurationVar(&n.scrubInterval, "scrub-interval", time.Second, "time between two checks of old tiles")
	flags.DurationVar(&n.scrubPeriod, "scrub-period", 7*24*time.Hour,
		"time within which every old tile is checked. In a larger log, more tiles are checked each time, up to 16")
	flags.IntVar(&n.maxQueue, "max-queue", 4096, "maximum number of waiting submissions")
	flags.IntVar(&n.maxWritten, "max-write-rate", 16<<20,
		"maximum number of bytes that steps write in a second, on average. "+
			"If large certificates must be written again, heads are made less often")
	flags.IntVar(&n.maxBatch, "max-batch", 1024, "maximum number of entries of one step")
	flags.IntVar(&n.maxProofs, "max-proofs", 64, "maximum number of proofs that are made at the same time")
}

// witnessFlags defines the settings of the witnesses and of the quorums.
func (n *node) witnessFlags(flags *flag.FlagSet) {
	flags.Func("witnesses",
		"space-separated `witnesses` that cosign the log's heads. Each is a URL, a comma, and a verifier key",
		func(text string) error {
			n.witnesses = nil
			for _, field := range strings.Fields(text) {
				one, err := witness.ReadOne(field)
				if err != nil {
					return err
				}
				n.witnesses = append(n.witnesses, one)
			}
			return nil
		})
	flags.IntVar(&n.quorums.Publish, "publish-quorum", 0,
		"number of witnesses that must cosign a head before it is published "+
			"(default more than half of the witnesses and the faulty ones)")
	flags.IntVar(&n.quorums.Start, "start-quorum", 0,
		"number of witnesses that must cosign the newest head again before submissions are accepted after a start "+
			"(default the same)")
	flags.IntVar(&n.quorums.Faults, "faulty-witnesses", 0,
		"number of witnesses that may be rolled back or may lie. "+
			"With n witnesses, n + faulty-witnesses must be below publish-quorum + start-quorum")
}
