"""The proved programs, for tests that hold the desk to what they write."""
import os
import subprocess

TOP = os.path.dirname(os.path.dirname(os.path.dirname(os.path.abspath(__file__))))
# .ci/x86 says what stands before a program on a machine that isn't x86-64.
COMMAND = '. .ci/x86 && exec "${x86_program[@]}" "target/bin/$@"'


def written(program, log):
    """What a program writes of a log's octets."""
    if not os.path.exists(os.path.join(TOP, 'target/bin', program)):
        raise FileNotFoundError(f'target/bin/{program} is not there; ./run {program} makes it')
    command = ['bash', '-c', COMMAND, 'bash', program]
    return subprocess.run(command, cwd=TOP, input=log, stdout=subprocess.PIPE, check=True).stdout
