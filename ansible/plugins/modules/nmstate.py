#!/usr/bin/python
# SPDX-License-Identifier: Apache-2.0
from __future__ import absolute_import, division, print_function

__metaclass__ = type

DOCUMENTATION = r"""
---
module: nmstate
short_description: Applies a document of the network's state by nmstatectl
description:
  - Runs C(nmstatectl) on the managed machine, with the document on its standard input.
  - A second run changes nothing. In check mode it only plans.
options:
  desired:
    description:
      - The document, as a mapping or as a text in YAML or JSON. A policy may stand here, too.
    type: raw
  file:
    description:
      - A file on the managed machine that holds the document.
    type: path
  state_dir:
    description:
      - The folder of the state.
    type: path
    default: /var/lib/nmstatectl
  program:
    description:
      - The program, by its path or its name.
    type: str
    default: nmstatectl
  commit:
    description:
      - With C(auto) the change is committed at once. With C(hold) it is pending until a C(commit), and is
        rolled back by the first C(recover) from its deadline on.
    type: str
    choices: [auto, hold]
    default: auto
  timeout:
    description:
      - The seconds from the change to its deadline, with C(hold).
    type: int
    default: 60
author:
  - the maintainers of nmstatectl (@nmstatectl)
attributes:
  check_mode:
    support: full
    description: The plan is made and nothing else. C(changed) is true where it has a call.
  diff_mode:
    support: full
    description: Shows the plan, and the network before and after.
"""

EXAMPLES = r"""
- name: Give the bond a VLAN
  nmstatectl.change.nmstate:
    desired:
      interfaces:
        - name: bond0.5
          type: vlan
          state: up
          vlan:
            base-iface: bond0
            id: 5

- name: Change the network from afar, pending for two minutes
  nmstatectl.change.nmstate:
    desired: "{{ lookup('file', 'bond.yml') }}"
    commit: hold
    timeout: 120
"""

RETURN = r"""
plan:
  description: The kernel calls that lead to the wanted network, one a line.
  returned: where the plan could be made
  type: list
  elements: str
status:
  description: The exit status of the last command.
  returned: always
  type: int
answer:
  description: What the last command printed.
  returned: always
  type: str
pending:
  description: Whether the change is pending until a commit.
  returned: always
  type: bool
deadline:
  description: The moment from which on a pending change is rolled back, in seconds since the beginning of 1970.
  returned: where the change is pending
  type: int
recovered:
  description: Whether a change that was unfinished or expired was rolled back before.
  returned: always
  type: bool
notes:
  description: What of the document was ignored.
  returned: always
  type: list
  elements: str
"""

import json
import re

from ansible.module_utils.basic import AnsibleModule
from ansible.module_utils.common.text.converters import to_bytes, to_text

# What each exit status of the program says, for those who read a log. The line of the program itself stands beside it.
MEANINGS = {
    1: "the document is refused",
    2: "the program doesn't know these arguments",
    3: "another change is pending, or there is none",
    4: "the change failed and was rolled back",
    5: "the state couldn't be read or written",
    6: "the document couldn't be read",
    7: "an answer couldn't be written",
    8: "out of memory",
    9: "what was read back isn't what was wanted, and the change was rolled back",
    10: "whether the change is committed is in doubt: recover settles it",
    11: "what is stored can't be worked with",
}


class Program:
    """The program over one folder of state, and one document."""

    def __init__(self, module):
        self.module = module
        self.words = [module.params["program"], "--state", module.params["state_dir"]]
        self.document = document_of(module)

    def run(self, *words, **given):
        """The status of a command and what it writes to both streams."""
        status, out, err = self.module.run_command(
            self.words + list(words), data=given.get("data", b""), binary_data=True, encoding=None)
        return status, to_text(out), to_text(err)

    def over_document(self, *words):
        return self.run(*words, data=self.document)


def document_of(module):
    desired = module.params["desired"]
    if desired is None:
        try:
            with open(module.params["file"], "rb") as file:
                return file.read()
        except (IOError, OSError) as error:
            module.fail_json(msg="the document can't be read: %s" % error)
    if isinstance(desired, (dict, list)):
        return to_bytes(json.dumps(desired))
    return to_bytes(desired)


def notes_of(err):
    return [line[len("note: "):] for line in err.splitlines() if line.startswith("note: ")]


def deadline_of(out):
    """The deadline that `applied, waiting until D` and `waiting until D` tell."""
    found = re.search(r"waiting until (\d+)", out)
    return int(found.group(1)) if found else None


def fail(module, result, command, ran):
    status, out, err = ran
    errors = [line for line in err.splitlines() if line.startswith("error: ")]
    said = errors[-1][len("error: "):] if errors else err.strip() or "no message"
    result.update(status=status, answer=out, notes=notes_of(err), stderr=err)
    module.fail_json(msg="%s: %s (%s, status %d)" % (command, said, MEANINGS.get(status, "it failed"), status), **result)


def planned(program, module, result):
    """The lines of the plan, on the network as it is."""
    ran = program.over_document("plan")
    if ran[0]:
        fail(module, result, "plan", ran)
    result.update(status=0, answer=ran[1], notes=notes_of(ran[2]))
    return ran[1].splitlines()


def shown(program):
    status, out, _err = program.run("show")
    return out if status == 0 else ""


def simulated(program):
    """The network that the plan leads to, tried out on a copy."""
    status, lines, _err = program.over_document("plan", "--batch")
    if status:
        return ""
    status, out, _err = program.run("simulate", data=to_bytes(lines))
    return out if status == 0 else ""


def difference(plan, before, after):
    return [
        {"prepared": "".join("%s\n" % line for line in plan)},
        {"before_header": "show, before", "after_header": "show, after", "before": before, "after": after},
    ]


def applied(program, module, result):
    """Applies the document, and says whether the change is pending, and until when."""
    words = ["apply"]
    if module.params["commit"] == "hold":
        words += ["--no-commit", "--timeout", str(module.params["timeout"])]
    ran = program.over_document(*words)
    if ran[0]:
        # Only where it is in doubt, or a rollback failed, may something have changed.
        result["changed"] = result["recovered"] or ran[0] in (5, 8, 10)
        fail(module, result, "apply", ran)
    deadline = deadline_of(ran[1])
    result.update(changed=True, answer=ran[1], notes=notes_of(ran[2]), pending=deadline is not None)
    if deadline is not None:
        result["deadline"] = deadline


def recovered(program, module, result):
    """Rolls back what is unfinished or expired, so that the plan is made where `apply` makes it."""
    ran = program.run("recover")
    if ran[0]:
        fail(module, result, "recover", ran)
    result["recovered"] = ran[1].startswith("restored")
    result["changed"] = result["recovered"]
    deadline = deadline_of(ran[1])
    if deadline is not None:
        result.update(pending=True, deadline=deadline)


def main():
    module = AnsibleModule(
        argument_spec=dict(
            desired=dict(type="raw"),
            file=dict(type="path"),
            state_dir=dict(type="path", default="/var/lib/nmstatectl"),
            program=dict(type="str", default="nmstatectl"),
            commit=dict(type="str", choices=["auto", "hold"], default="auto"),
            timeout=dict(type="int", default=60),
        ),
        mutually_exclusive=[("desired", "file")],
        required_one_of=[("desired", "file")],
        supports_check_mode=True,
    )
    program = Program(module)
    result = dict(changed=False, pending=False, recovered=False, status=0, answer="", notes=[])
    if not module.check_mode:
        recovered(program, module, result)
    plan = result["plan"] = planned(program, module, result)
    before = shown(program) if module._diff else ""
    if module.check_mode:
        result["changed"] = bool(plan)
        after = simulated(program) if module._diff else ""
    else:
        # Nothing to do is done by nothing; a pending change that leads there already is left pending, so that a play which
        # was cut off can go on. All else is the program's to answer, a change that is pending for others too.
        if plan or (result["pending"] and module.params["commit"] == "auto"):
            applied(program, module, result)
        after = shown(program) if module._diff else ""
    if module._diff:
        result["diff"] = difference(plan, before, after)
    module.exit_json(**result)


if __name__ == "__main__":
    main()
