package signer

import (
	"fmt"
	"net/url"
	"strings"
	"time"

	"github.com/ThalesIgnite/crypto11"
)

// tokenScheme is the scheme of PKCS#11 URIs (RFC 7512, section 2.3).
const tokenScheme = "pkcs11:"

// IsToken reports whether a key's path is a PKCS#11 URI, and not the path of a file.
func IsToken(path string) bool { return strings.HasPrefix(path, tokenScheme) }

// SecretFile returns the file with the secret of a key's path: the key itself, or the PIN of its token. It returns "" for
// an invalid PKCS#11 URI.
func SecretFile(path string) string {
	if !IsToken(path) {
		return path
	}
	tok, err := parseToken(path)
	if err != nil {
		return ""
	}
	return tok.pinFile
}

// sessionTimeout is the time that a signature waits for a session with the token.
const sessionTimeout = 10 * time.Second

// token holds the fields of a PKCS#11 URI: the module, the token, the key in it, and the path of the file with the PIN.
type token struct {
	module, label, serial, object, pinFile string
	id                                     []byte
}

// parseToken reads a URI: pkcs11:token=LABEL;object=LABEL?module-path=PATH&pin-source=file:PATH. The URI may have
// serial instead of token or in addition to it, and id instead of object or in addition to it. It must not contain the
// PIN itself, since other users could read it among a process's arguments.
func parseToken(uri string) (*token, error) {
	path, query, _ := strings.Cut(strings.TrimPrefix(uri, tokenScheme), "?")
	tok, id := &token{}, ""
	fields := map[string]*string{"token": &tok.label, "serial": &tok.serial, "object": &tok.object, "id": &id,
		"module-path": &tok.module, "pin-source": &tok.pinFile}
	seen := map[string]bool{}
	for _, part := range []struct{ text, separator string }{{path, ";"}, {query, "&"}} {
		for _, attribute := range strings.Split(part.text, part.separator) {
			if attribute == "" {
				continue
			}
			name, value, _ := strings.Cut(attribute, "=")
			value, err := url.PathUnescape(value)
			if fields[name] == nil || seen[name] || value == "" || err != nil {
				return nil, fmt.Errorf("%w: attribute %q of the PKCS#11 URI is unknown, repeated or empty",
					ErrKey, name)
			}
			*fields[name], seen[name] = value, true
		}
	}
	if id != "" {
		tok.id = []byte(id)
	}
	tok.pinFile = strings.TrimPrefix(tok.pinFile, "file:")
	if tok.module == "" || tok.label+tok.serial == "" || tok.object+id == "" || tok.pinFile == "" {
		return nil, fmt.Errorf("%w: a PKCS#11 URI must have token or serial, object or id, module-path and pin-source",
			ErrKey)
	}
	return tok, nil
}

// openToken finds the key that a URI names. A process that has logged in to a token does not need its PIN again.
func openToken(uri string) (*Key, error) {
	tok, err := parseToken(uri)
	if err != nil {
		return nil, err
	}
	pin, err := readPrivate(tok.pinFile, "a PIN")
	if err != nil {
		return nil, err
	}
	config := &crypto11.Config{Path: tok.module, Pin: strings.TrimSpace(string(pin)), PoolWaitTimeout: sessionTimeout}
	// crypto11 takes either a token's label or its serial.
	if config.TokenLabel = tok.label; tok.label == "" {
		config.TokenSerial = tok.serial
	}
	module, err := crypto11.Configure(config)
	if err != nil {
		return nil, fmt.Errorf("signer: PKCS#11: %w", err)
	}
	var label []byte
	if tok.object != "" {
		label = []byte(tok.object)
	}
	private, err := module.FindKeyPair(tok.id, label)
	if err == nil && private == nil {
		err = fmt.Errorf("%w: the token has no key of that name", ErrKey)
	}
	var key *Key
	if err == nil {
		key, err = FromKey(private)
	}
	if err != nil {
		module.Close()
		return nil, fmt.Errorf("signer: PKCS#11: %w", err)
	}
	key.module = module
	return key, nil
}
