"""What people touch around the proved program: tests of policies, explanations, policies as scripts, and what
is wrong with a script. Nothing that is proved stands on it. Every answer comes from the program itself, which
is run on the script; the rules that are folded here serve the explanation alone, and are compared with the
program's verdicts.

Reading order: kinds, tables, script, record, rules, tasks, account; then expectations, diagnosis, and a module
for each command.
"""
