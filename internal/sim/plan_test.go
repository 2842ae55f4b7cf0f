package sim_test

import (
	"reflect"
	"testing"
	"time"

	"wagtenib/internal/sim"
	"wagtenib/internal/witness"
)

// TestPlanPrintsAllFields changes each field of a plan, of its faults and of its clients. The printed plan must change
// too, so that a plan can be built again from the output of a failure.
func TestPlanPrintsAllFields(t *testing.T) {
	plan := sim.Plan{Faults: []sim.Fault{{}}, Clients: []sim.Client{{}}}
	printed := plan.String()
	for _, of := range []reflect.Value{reflect.ValueOf(&plan), reflect.ValueOf(&plan.Faults[0]),
		reflect.ValueOf(&plan.Clients[0])} {
		of = of.Elem()
		for i := range of.NumField() {
			before := reflect.New(of.Field(i).Type()).Elem()
			before.Set(of.Field(i))
			of.Field(i).Set(changed(t, of.Field(i).Type()))
			if plan.String() == printed {
				t.Errorf("a plan with another %s of %s is printed in the same way", of.Type().Field(i).Name, of.Type())
			}
			of.Field(i).Set(before)
		}
	}
}

// changed returns a value of a type that is not its zero value.
func changed(t *testing.T, of reflect.Type) reflect.Value {
	t.Helper()
	for _, value := range []any{true, 7, int64(7), "x", time.Second, sim.Paused, []int{1}, []sim.Fault{{}, {}},
		[]sim.Client{{}, {}}, sim.Witnesses{Count: 3, Quorums: witness.Quorums{Publish: 2, Start: 2}}} {
		if reflect.TypeOf(value) == of {
			return reflect.ValueOf(value)
		}
	}
	t.Fatalf("no other value of %s", of)
	return reflect.Value{}
}
