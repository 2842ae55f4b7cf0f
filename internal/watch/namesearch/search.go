package namesearch

import (
	"errors"
	"strings"

	"wagtenib/bindings/go/wagtenib"
)

// Place is the place in a certificate where a watched name was found.
type Place string

// The places, from the surest to the least sure.
const (
	InAltName    Place = "san"        // the library finds that the watched name covers a name of subjectAltName
	InCommonName Place = "cn"         // the library finds that the watched name covers a common name
	LikeAltName  Place = "like-san"   // this package finds that a name of subjectAltName may match
	LikeCommon   Place = "like-cn"    // this package finds that a common name may match
	InBytes      Place = "bytes"      // the library finds the watched name in bytes whose names cannot be read
	Everywhere   Place = "everything" // the watch list selects every certificate
)

// IsProved reports whether the proved library found the place.
func (p Place) IsProved() bool { return p == InAltName || p == InCommonName || p == InBytes }

// Match is a watched name that was found.
type Match struct {
	Name  Name
	Place Place
}

// Result holds what Search found in a certificate.
type Result struct {
	Matches []Match         // the watched names that were found, in the order of the watch list
	Names   []wagtenib.Name // the certificate's names, in their order; nil if they cannot be read
	Fault   error           // the error of wagtenib.CertificateNames; nil if the names can be read
}

// Searcher searches certificates for watched names. Any number of goroutines may use it at once.
type Searcher struct {
	names   []Name
	list    wagtenib.WatchList
	indexes []int      // the index in names of each name of list
	labels  [][]string // the labels of the domain of each of names
}

// NewSearcher returns a searcher for these names.
func NewSearcher(names []Name) *Searcher {
	s := &Searcher{names: names}
	var patterns []string
	for i, name := range names {
		for _, pattern := range name.patterns() {
			patterns, s.indexes = append(patterns, pattern), append(s.indexes, i)
		}
		s.labels = append(s.labels, strings.Split(name.domain, "."))
	}
	s.list = wagtenib.NewWatchList(patterns)
	return s
}

// Names returns the watched names. The caller must not change them.
func (s *Searcher) Names() []Name { return s.names }

// Search searches a certificate (wagtenib.X509Entry), or the TBSCertificate of a precertificate
// (wagtenib.PrecertEntry), both in DER. The error is nil or wagtenib.ErrMemory. If the certificate cannot be read, the
// Result has a Fault, and the bytes are searched: those of many other certificates contain a short name, or the host of
// a CA.
func (s *Searcher) Search(entryType wagtenib.EntryType, certificate []byte) (Result, error) {
	names, err := wagtenib.CertificateNames(entryType, certificate)
	if errors.Is(err, wagtenib.ErrMemory) {
		return Result{}, err
	}
	places := make([]Place, len(s.names))
	if err != nil {
		fault := err
		if err := s.addBytes(places, certificate); err != nil {
			return Result{}, err
		}
		return Result{Fault: fault, Matches: s.matches(places)}, nil
	}
	found, err := wagtenib.WatchedNames(entryType, certificate, s.list)
	if err != nil {
		return Result{}, err
	}
	for _, one := range found {
		place := &places[s.indexes[one.Position]]
		if one.Place == wagtenib.InAltName {
			*place = InAltName
		} else if *place == "" {
			*place = InCommonName
		}
	}
	s.addReadings(places, names)
	return Result{Names: names, Matches: s.matches(places)}, nil
}

// addBytes sets the places of watched names that have none, and that are in the bytes of the certificate.
func (s *Searcher) addBytes(places []Place, certificate []byte) error {
	found, err := wagtenib.NamesInBytes(certificate, s.list)
	if err != nil {
		return err
	}
	for _, one := range found {
		if place := &places[s.indexes[one.Position]]; *place == "" {
			*place = InBytes
		}
	}
	return nil
}

// addReadings sets the places of watched names that have none, and that a reading of a name may match.
func (s *Searcher) addReadings(places []Place, names []wagtenib.Name) {
	for _, name := range names {
		if isPlain(name) {
			continue
		}
		place := LikeAltName
		switch name.Kind {
		case wagtenib.CommonName, wagtenib.BMPCommonName, wagtenib.UniversalCommonName:
			place = LikeCommon
		}
		for _, reading := range readings(name) {
			labels := strings.Split(reading, ".")
			for i := range s.names {
				if places[i] == "" && mayMatch(reading, labels, s.names[i], s.labels[i]) {
					places[i] = place
				}
			}
		}
	}
}

// matches returns the watched names that have a place. A name that matches every certificate always has one.
func (s *Searcher) matches(places []Place) []Match {
	var matches []Match
	for i, name := range s.names {
		if places[i] == "" && name.IsEverything() {
			places[i] = Everywhere
		}
		if places[i] != "" {
			matches = append(matches, Match{name, places[i]})
		}
	}
	return matches
}
