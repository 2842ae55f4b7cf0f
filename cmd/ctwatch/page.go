package main

import (
	"context"
	_ "embed"
	"encoding/pem"
	"errors"
	"fmt"
	"html/template"
	"net"
	"net/http"
	"net/netip"
	"slices"
	"strconv"
	"strings"
	"time"

	"github.com/prometheus/client_golang/prometheus"
	"github.com/prometheus/client_golang/prometheus/promhttp"

	"wagtenib/internal/command/eventlog"
	"wagtenib/internal/watch/alert"
	"wagtenib/internal/watch/namesearch"
	"wagtenib/internal/watch/watchstore"
)

//go:embed page.html
var pageText string

//go:embed page.css
var pageStyle string

var pageTemplate = template.Must(template.New("page").Funcs(template.FuncMap{
	"day":  func(at time.Time) string { return orDash(at, time.DateOnly) },
	"time": func(at time.Time) string { return orDash(at, "2006-01-02 15:04:05") },
}).Parse(pageText))

func orDash(at time.Time, layout string) string {
	if at.IsZero() {
		return "–"
	}
	return at.UTC().Format(layout)
}

// The bounds of the page.
const (
	maxRows         = 100
	maxDays         = 60
	maxHeader       = 16 << 10 // bytes
	pageTimeout     = 30 * time.Second
	shutdownTimeout = 5 * time.Second
)

// pageServer serves the local page, metrics and health.
type pageServer struct {
	listener net.Listener
	server   *http.Server
	failed   chan error
}

// listen serves the page at the address of the settings. If the address is empty, it serves nothing.
func listen(settings serveSettings, store *watchstore.Store, listed *listStatus,
	lines *eventlog.Lines) (*pageServer, error) {
	if settings.listen == "" {
		return &pageServer{}, nil
	}
	listener, err := net.Listen("tcp", settings.listen)
	if err != nil {
		return nil, fmt.Errorf("%w (write another --listen, or --listen '' for no page)", err)
	}
	p := &pageServer{listener: listener, failed: make(chan error, 1)}
	handler := onlyHosts(pageHandler(store, listed, lines), settings.hosts)
	p.server = &http.Server{Handler: handler, ReadTimeout: pageTimeout,
		WriteTimeout: pageTimeout, IdleTimeout: pageTimeout, MaxHeaderBytes: maxHeader}
	go func() { p.failed <- p.server.Serve(listener) }()
	return p, nil
}

// address returns the URL of the page, or "" if it is not served.
func (p *pageServer) address() string {
	if p.listener == nil {
		return ""
	}
	return "http://" + p.listener.Addr().String() + "/"
}

// close ends the server of the page.
func (p *pageServer) close() error {
	if p.server == nil {
		return nil
	}
	ctx, cancel := context.WithTimeout(context.Background(), shutdownTimeout)
	defer cancel()
	err := p.server.Shutdown(ctx)
	if failed := <-p.failed; !errors.Is(failed, http.ErrServerClosed) {
		err = errors.Join(err, failed)
	}
	return err
}

// onlyHosts returns a handler that answers requests whose Host is an address, localhost or one of these names. A page of
// a stranger can have its own name resolve to this machine (DNS rebinding), and would otherwise read the watched names
// in the browser of their owner. Its requests have its name as their Host.
func onlyHosts(next http.Handler, names []string) http.Handler {
	return http.HandlerFunc(func(w http.ResponseWriter, r *http.Request) {
		host := strings.Trim(r.Host, "[]")
		if name, _, err := net.SplitHostPort(r.Host); err == nil {
			host = name
		}
		host = strings.ToLower(strings.TrimSuffix(host, "."))
		if _, err := netip.ParseAddr(host); err != nil && host != "localhost" && !slices.Contains(names, host) {
			http.Error(w, fmt.Sprintf("ctwatch does not answer for the host %.100q: use its address, or name this host in "+
				"the settings (page-host)", host), http.StatusMisdirectedRequest)
			return
		}
		next.ServeHTTP(w, r)
	})
}

// pageHandler returns the handler of the page, of /metrics and of /healthz.
func pageHandler(store *watchstore.Store, listed *listStatus, lines *eventlog.Lines) http.Handler {
	h := &pages{store, listed, lines}
	mux := http.NewServeMux()
	mux.HandleFunc("GET /{$}", h.search)
	mux.HandleFunc("GET /logs", h.logs)
	mux.HandleFunc("GET /alerts", h.alerts)
	mux.HandleFunc("GET /certificate/{hash}", h.certificate)
	mux.HandleFunc("GET /style.css", func(w http.ResponseWriter, _ *http.Request) {
		w.Header().Set("Content-Type", "text/css; charset=utf-8")
		h.write(w, []byte(pageStyle))
	})
	mux.HandleFunc("GET /healthz", h.health)
	registry := prometheus.NewRegistry()
	registry.MustRegister(newCollector(store))
	mux.Handle("GET /metrics", promhttp.HandlerFor(registry, promhttp.HandlerOpts{}))
	return http.HandlerFunc(func(w http.ResponseWriter, r *http.Request) {
		// The page has no script, and loads nothing from another host. The text of a certificate cannot change this.
		w.Header().Set("Content-Security-Policy",
			"default-src 'none'; style-src 'self'; form-action 'self'; frame-ancestors 'none'; base-uri 'none'")
		w.Header().Set("X-Content-Type-Options", "nosniff")
		w.Header().Set("Referrer-Policy", "no-referrer")
		mux.ServeHTTP(w, r)
	})
}

// pages holds the handlers of the page.
type pages struct {
	store  *watchstore.Store
	listed *listStatus
	lines  *eventlog.Lines
}

// content holds the values that the template shows.
type content struct {
	Title    string
	Query    string
	Valid    bool
	Fault    string
	Found    []watchstore.Issuance
	Older    int64
	Days     []watchstore.Day
	MaxOfDay int64 // the largest count of Days
	Logs     []watchstore.LogStatus
	Alerts   []string
}

func (h *pages) show(w http.ResponseWriter, c content, err error) {
	if err != nil {
		h.lines.Error("page", "fault", err)
		http.Error(w, "the store cannot be read (the lines of ctwatch run say why)", http.StatusInternalServerError)
		return
	}
	w.Header().Set("Content-Type", "text/html; charset=utf-8")
	if err := pageTemplate.Execute(w, c); err != nil {
		h.lines.Warn("page", "fault", err)
	}
}

// write answers with bytes. A failure is only a warning, because it means that the client has closed the connection.
func (h *pages) write(w http.ResponseWriter, body []byte) {
	if _, err := w.Write(body); err != nil {
		h.lines.Warn("page", "fault", err)
	}
}

// search shows the newest certificates, or those of a name if the request has one, and the timeline.
func (h *pages) search(w http.ResponseWriter, r *http.Request) {
	c := content{Title: "Certificates", Query: r.FormValue("name"), Valid: r.FormValue("valid") != ""}
	query := watchstore.Query{Limit: maxRows}
	if before, err := strconv.ParseInt(r.FormValue("before"), 10, 64); err == nil {
		query.Before = before
	}
	if c.Valid {
		query.ValidAt = time.Now()
	}
	if c.Query != "" {
		name, err := namesearch.ParseName(c.Query)
		if err != nil {
			c.Fault = alert.Safe(err.Error())
			w.WriteHeader(http.StatusBadRequest)
			h.show(w, c, nil)
			return
		}
		query.Name = &name
	}
	var err error
	if c.Found, err = h.store.Find(query); err == nil {
		c.Days, err = h.store.Timeline(maxDays)
	}
	if len(c.Found) == maxRows {
		c.Older = c.Found[maxRows-1].ID
	}
	for _, day := range c.Days {
		c.MaxOfDay = max(c.MaxOfDay, day.Count)
	}
	h.show(w, c, err)
}

// logs shows the status of each log.
func (h *pages) logs(w http.ResponseWriter, _ *http.Request) {
	c := content{Title: "Logs"}
	var err error
	c.Logs, err = h.store.LogStatuses()
	h.show(w, c, err)
}

// alerts shows the newest alerts.
func (h *pages) alerts(w http.ResponseWriter, _ *http.Request) {
	c := content{Title: "Alerts"}
	alerts, err := h.store.Alerts(maxRows)
	for _, one := range alerts {
		c.Alerts = append(c.Alerts, one.Time.Format("2006-01-02 15:04:05")+" "+alert.Line(one))
	}
	h.show(w, c, err)
}

// certificate answers with a certificate in PEM.
func (h *pages) certificate(w http.ResponseWriter, r *http.Request) {
	der, err := h.store.Certificate(r.PathValue("hash"))
	if err != nil {
		http.Error(w, alert.Safe(err.Error()), http.StatusNotFound)
		return
	}
	w.Header().Set("Content-Type", "application/x-pem-file")
	w.Header().Set("Content-Disposition", `attachment; filename="certificate.pem"`)
	h.write(w, pem.EncodeToMemory(&pem.Block{Type: "CERTIFICATE", Bytes: der}))
}

// health answers with the health as one line. The status is 503 if no log is known yet, the log list cannot be read, a
// log has been silent for a day, or alerts cannot be sent.
func (h *pages) health(w http.ResponseWriter, _ *http.Request) {
	health, err := h.store.Health(24 * time.Hour)
	health.Unread = h.listed.unread()
	switch {
	case err != nil:
		http.Error(w, "the store cannot be read", http.StatusInternalServerError)
	case health.Logs == 0 || health.List != "" || len(health.Silent) > 0 || len(health.Outputs) > 0:
		http.Error(w, health.String(), http.StatusServiceUnavailable)
	default:
		h.write(w, []byte(health.String()+"\n"))
	}
}
