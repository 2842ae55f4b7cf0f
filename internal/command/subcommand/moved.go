package subcommand

import "fmt"

// moved holds the commands that now belong to another program, with their new names.
var moved = map[string]string{
	"ctserve audit":   "ctaudit probe",
	"ctwatch audit":   "ctaudit sct",
	"ctwatch compare": "ctaudit compare",
	"ctwatch cosign":  "ctaudit cosign",
}

// Moved returns the message for a command that now belongs to another program, or an empty text.
func Moved(program, command string) string {
	now := moved[program+" "+command]
	if now == "" {
		return ""
	}
	return fmt.Sprintf("%s: the command %s is now in another program (write %s; %s --help lists its arguments)", program,
		command, now, now)
}
