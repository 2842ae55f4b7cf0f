package logclient

import (
	"crypto/tls"
	"crypto/x509"
	"fmt"
	"net/http"
	"os"
)

// OptionsOf returns the options for the requests of a program or of one of its commands, from the values of its flags
// --ca-file and --contact. Without a file, the CAs of the system count. The error names the flag that is wrong.
func OptionsOf(program, version, caFile, contact string) (options Options, err error) {
	if options.UserAgent, err = UserAgent(program, version, contact); err != nil {
		return options, fmt.Errorf("--contact: %w", err)
	}
	transport := http.DefaultTransport.(*http.Transport).Clone()
	if caFile != "" {
		text, err := os.ReadFile(caFile)
		if err != nil {
			return options, fmt.Errorf("--ca-file: %w", err)
		}
		pool := x509.NewCertPool()
		if !pool.AppendCertsFromPEM(text) {
			return options, fmt.Errorf("--ca-file %s has no certificate in PEM", caFile)
		}
		transport.TLSClientConfig = &tls.Config{RootCAs: pool}
	}
	options.Transport = transport
	return options, nil
}
