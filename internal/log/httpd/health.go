package httpd

import (
	"context"
	"errors"
	"net/http"
	"time"

	"wagtenib/internal/log"
)

// healthz answers that the process is alive.
func (f *Front) healthz(w http.ResponseWriter, r *http.Request) error {
	w.Header().Set("Cache-Control", "no-store")
	write(w, http.StatusOK, "text/plain; charset=utf-8", []byte("ok\n"))
	return nil
}

// readyz answers whether the node can be used now: it does not end, it has no fault, its queue has room, and its head
// can be read within two seconds. A damaged old tile changes nothing. A read-only log is ready for reads.
func (f *Front) readyz(w http.ResponseWriter, r *http.Request) error {
	if err := f.checkReady(r.Context()); err != nil {
		return err
	}
	w.Header().Set("Cache-Control", "no-store")
	write(w, http.StatusOK, "text/plain; charset=utf-8", []byte("ready\n"))
	return nil
}

// checkReady returns the refusal that /readyz answers, or nil.
func (f *Front) checkReady(ctx context.Context) error {
	unready := func(name string, why error) error {
		return refusal{status: http.StatusServiceUnavailable, name: name, after: 1, why: why}
	}
	metrics := f.log.Metrics()
	switch {
	case f.ending.Load():
		return unready("ended", nil)
	case metrics.Fault != "":
		return unready("fault", errors.New(metrics.Fault))
	case metrics.MaxQueue > 0 && metrics.Queue >= metrics.MaxQueue:
		return unready("busy", nil)
	}
	ctx, cancel := context.WithTimeout(ctx, 2*time.Second)
	defer cancel()
	if _, err := f.log.Checkpoint(ctx); err != nil {
		refused := refusalOf(err)
		refused.status, refused.after = http.StatusServiceUnavailable, 1
		return refused
	}
	return nil
}

// LogFaults reads the log's metrics at each interval until the context ends. It logs the faults that stop the log, the
// damage in it, the end of either, and repairs.
func (f *Front) LogFaults(ctx context.Context, interval time.Duration) {
	timer := time.NewTicker(interval)
	defer timer.Stop()
	var before log.Metrics
	wereAhead := map[string]bool{}
	for {
		now := f.log.Metrics()
		f.logWitnesses(wereAhead, now.Witnesses)
		f.logChanges(&before, &now)
		before = now
		select {
		case <-timer.C:
		case <-ctx.Done():
			return
		}
	}
}

// logWitnesses logs each witness that is ahead of the log and was not so at the previous call.
func (f *Front) logWitnesses(wereAhead map[string]bool, witnesses []log.Witness) {
	for _, w := range witnesses {
		if w.IsAhead && !wereAhead[w.Name] {
			f.options.Lines.Error("witness-seen-more", "witness", w.Name, "detail", w.Fault)
		}
		wereAhead[w.Name] = w.IsAhead
	}
}

// logChanges logs the faults, damage, failures and repairs in which the metrics differ from the previous ones.
func (f *Front) logChanges(before, now *log.Metrics) {
	if now.Fault != before.Fault {
		f.logFault("fault", before.Fault, now.Fault)
	}
	if now.Fault == "" && now.Faults != before.Faults {
		// A fault began and ended between the two metrics.
		f.logFault("fault", "", now.LastFault)
		f.logFault("fault", now.LastFault, "")
	}
	isOther := now.Damaged != before.Damaged || now.DamagedIssuers != before.DamagedIssuers
	if now.Damage != before.Damage || before.Damage != "" && isOther {
		f.logFault("damage", before.Damage, now.Damage, "tiles", now.Damaged, "issuers", now.DamagedIssuers)
	}
	if now.JanitorFailures != before.JanitorFailures {
		f.options.Lines.Warn("tend", "failures", now.JanitorFailures-before.JanitorFailures, "detail", now.JanitorFailure)
	}
	if now.WrongSignatures != before.WrongSignatures {
		f.options.Lines.Error("wrong-signature", "replies", now.WrongSignatures-before.WrongSignatures)
	}
	if now.Repaired != before.Repaired {
		f.options.Lines.Warn("made-again", "objects", now.Repaired-before.Repaired, "last", now.LastRepaired)
	}
}

// logFault logs a new fault under this event, or if now is empty, the end of the one before. More fields are pairs of
// key and value.
func (f *Front) logFault(event, before, now string, more ...any) {
	if now == "" {
		f.options.Lines.Info("mended", "detail", before)
		return
	}
	f.options.Lines.Error(event, append([]any{"detail", now}, more...)...)
}
