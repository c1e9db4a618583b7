package coder

// #include "calls.h"
import "C"

// Plan is how lost fragments are decoded. It depends on the lost set alone, so one plan serves any
// number of stripes, and any number of goroutines at once. It is a value: copy it, compare it, drop
// it. NewPlan makes it, and the zero Plan is refused.
type Plan struct {
	code   Code
	plan   C.coder_plan
	wanted set
}

// NewPlan returns a plan that decodes the wanted ones, at most four, of these lost fragments.
func NewPlan(c Code, lost, wanted []int) (Plan, error) {
	const op = "NewPlan"
	gone, err := c.set(op, lost)
	if err != nil {
		return Plan{}, err
	}
	p := Plan{code: c}
	for _, fragment := range wanted {
		if err := c.checkLost(op, gone, fragment); err != nil {
			return Plan{}, err
		}
		p.wanted |= 1 << fragment
	}
	if err := c.firstUnrecoverable(op, gone, p.wanted); err != nil {
		return Plan{}, err
	}
	var f fragments
	p.plan = C.coder_plan_for(C.size_t(c), C.uint16_t(gone), f.targets(p.wanted))
	if err := failure(op, p.plan.status); err != nil {
		return Plan{}, err
	}
	return p, nil
}

// Reads returns the numbers of the fragments that Decode reads, in their order.
func (p Plan) Reads() []int { return set(p.plan.reads).numbers() }

// Fragments returns the numbers of the fragments that Decode writes, in their order.
func (p Plan) Fragments() []int { return p.wanted.numbers() }

// Decode rebuilds the plan's fragments where they belong in the stripe, which has a buffer for each
// of them. Fragments that it does not read may be nil, or anything else.
func (p Plan) Decode(stripe [][]byte) error {
	const op = "Plan.Decode"
	var f fragments
	if err := p.read(op, "fragments", &f, stripe); err != nil {
		return err
	}
	if missing := p.wanted &^ f.given(); missing != 0 {
		return refused(op, "fragment %d is nil, expected a buffer for its bytes", missing.first())
	}
	if err := f.checkEqual(op, set(p.plan.reads)|p.wanted); err != nil {
		return err
	}
	return p.decode(op, &f, &f, 0)
}

// DecodeAt fills targets with bytes of the plan's fragments from off on. There is a target for each
// fragment of the code, and nil for those that are not the plan's. All targets have one length.
func (p Plan) DecodeAt(stripe, targets [][]byte, off int) error {
	const op = "Plan.DecodeAt"
	var f, to fragments
	if err := p.read(op, "fragments", &f, stripe); err != nil {
		return err
	}
	if err := to.read(op, "targets", p.code, targets); err != nil {
		return err
	}
	if wrong := p.wanted ^ to.given(); wrong != 0 {
		return refused(op, "targets for %v, and the plan is for %v", to.given().numbers(),
			p.Fragments())
	}
	if err := f.checkRange(op, set(p.plan.reads), off, to.width(p.wanted)); err != nil {
		return err
	}
	return p.decode(op, &f, &to, off)
}

// read takes the fragments of a stripe, of which the plan's are there.
func (p *Plan) read(op, what string, f *fragments, stripe [][]byte) error {
	if p.code == 0 {
		return refused(op, "the plan is not made by NewPlan")
	}
	if err := f.read(op, what, p.code, stripe); err != nil {
		return err
	}
	if missing := set(p.plan.reads) &^ f.given(); missing != 0 {
		return refused(op, "fragment %d is nil, and the plan reads it", missing.first())
	}
	return nil
}

func (p *Plan) decode(op string, f, to *fragments, off int) error {
	if err := f.checkTargets(op, to, p.wanted, set(p.plan.reads)); err != nil {
		return err
	}
	status := C.coder_plan_decode(p.plan, f.addresses(), to.targets(p.wanted), C.size_t(off),
		C.size_t(to.width(p.wanted)))
	return failure(op, status)
}
