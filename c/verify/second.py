"""Asks a second solver what Z3 was asked. Nothing here needs trust: it can only refuse."""
import os
import subprocess

NAME = os.environ.get('SECOND', '')


def objection(solver, answer):
    """Why the second solver doesn't give the same answer, if it doesn't."""
    text = '(set-logic QF_BV)\n' + solver.to_smt2()
    done = subprocess.run([NAME, '--lang=smt2', '--tlimit=600000'], input=text,
                          capture_output=True, text=True, timeout=660)
    second = done.stdout.strip()
    if second not in ('sat', 'unsat'):
        return f'{NAME} does not answer: {second or done.stderr.strip()}'
    return f'Z3 answers {answer}, {NAME} {second}' if second != answer else None
