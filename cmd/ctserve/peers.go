package main

import (
	"crypto/tls"
	"crypto/x509"
	"errors"
	"flag"
	"fmt"
	"net/url"
	"os"
	"strings"

	"wagtenib/internal/log/httpd"
)

// peers are the settings of a log with several nodes.
type peers struct {
	// listen is the address for the other nodes, and address the URL at which they reach this one.
	listen, address string
	// certificate and key are the files with this node's certificate and key in PEM, and authority is that with the CA
	// of all nodes.
	certificate, key, authority string
}

// flags defines the settings.
func (p *peers) flags(flags *flag.FlagSet) {
	flags.StringVar(&p.listen, "nodes-listen", "", "`address` for the other nodes of the log (default none)")
	flags.StringVar(&p.address, "nodes-address", "",
		"`URL` at which the other nodes reach this one, for example https://node1.example:8620")
	flags.StringVar(&p.certificate, "nodes-certificate", "",
		"`file` with this node's TLS certificate chain in PEM, for its host in nodes-address, for a server and a "+
			"client. "+
			"It is read again at SIGHUP")
	flags.StringVar(&p.key, "nodes-key", "", "`file` with the key of nodes-certificate in PEM")
	flags.StringVar(&p.authority, "nodes-ca", "",
		"`file` with the CA of the nodes' certificates in PEM. Any holder of a certificate of this CA may submit "+
			"without limits of its own, so the CA must be only for the nodes")
}

// isSet reports whether the log has several nodes.
func (p *peers) isSet() bool { return p.address != "" }

// check returns an error unless all settings of nodes are set and right, or none is set.
func (p *peers) check() error {
	given := 0
	all := []string{p.listen, p.address, p.certificate, p.key, p.authority}
	for _, one := range all {
		if one != "" {
			given++
		}
	}
	if given == 0 {
		return nil
	}
	if given < len(all) {
		return errors.New("--nodes-listen, --nodes-address, --nodes-certificate, --nodes-key and --nodes-ca " +
			"need one another")
	}
	to, err := url.Parse(p.address)
	if err != nil || to.Scheme != "https" || to.Host == "" || to.User != nil || strings.TrimPrefix(to.Path,
		"/") != "" || len(p.address) > maxNodeAddress {
		return fmt.Errorf("--nodes-address %q is not a URL of a node (write https://HOST:PORT, of at most %d bytes)",
			p.address, maxNodeAddress)
	}
	_, _, err = p.load()
	return err
}

// maxNodeAddress is the maximum number of bytes of a node's address, which is part of the lock's text.
const maxNodeAddress = 200

// load reads the files.
func (p *peers) load() (*httpd.Certificate, *x509.CertPool, error) {
	certificate, err := httpd.LoadCertificate(p.certificate, p.key)
	if err != nil {
		return nil, nil, fmt.Errorf("--nodes-certificate: %w", err)
	}
	text, err := os.ReadFile(p.authority)
	if err != nil {
		return nil, nil, fmt.Errorf("--nodes-ca: %w", err)
	}
	pool := x509.NewCertPool()
	if !pool.AppendCertsFromPEM(text) {
		return nil, nil, fmt.Errorf("--nodes-ca: %s has no certificate in PEM "+
			"(write the CA of the nodes' certificates into it)", p.authority)
	}
	return certificate, pool, nil
}

// secured has the TLS configurations between nodes: for a node that listens, and for one that forwards. Both require a
// certificate of the CA.
type secured struct {
	certificate    *httpd.Certificate
	listens, dials *tls.Config
}

// secure returns the TLS configurations, or nil if the log has one node.
func (p *peers) secure() (*secured, error) {
	if !p.isSet() {
		return nil, nil
	}
	certificate, pool, err := p.load()
	if err != nil {
		return nil, err
	}
	listens := certificate.Config()
	listens.MinVersion, listens.ClientAuth, listens.ClientCAs = tls.VersionTLS13, tls.RequireAndVerifyClientCert, pool
	dials := &tls.Config{MinVersion: tls.VersionTLS13, RootCAs: pool,
		GetClientCertificate: func(*tls.CertificateRequestInfo) (*tls.Certificate, error) {
			return listens.GetCertificate(nil)
		}}
	return &secured{certificate, listens, dials}, nil
}

// nodeCertificate returns the node's certificate, or nil if the log has one node.
func (s *secured) nodeCertificate() *httpd.Certificate {
	if s == nil {
		return nil
	}
	return s.certificate
}
