"""The worked rows among the stored sessions: short sessions whose answers were written by hand. What is tried at each point, is tried on
these."""

import random

from checks.gate.replay import stored
from checks.generate.sessions import KINDS

WORKED = """
faults_none_at_the_nesting_limit
faults_none_for_clause_alone
faults_of_a_float
faults_of_a_stray_brace
faults_of_a_zero_byte
faults_of_an_empty_file
faults_of_an_unterminated_string
faults_of_an_unused_import
faults_of_nesting_over_the_limit
faults_of_two_package_cycle
input_bad_lines_and_paths
input_bad_lines_paths_and_object
input_cut_after_a_put_line
input_line_over_the_limit
input_lines_with_stray_bytes
input_of_no_bytes
log_entry_of_a_put
look_undo_redo_when_empty
move_captured_by_a_parameter
move_refused_by_missing_import
move_refused_for_its_paths
move_with_subpackage_and_undo
object_after_parameter_rename
object_after_rename_and_undo
object_after_variable_rename
object_of_a_for_loop
put_after_undo_drops_redo
put_count_over_the_limit
put_empty_text_at_end
put_path_over_the_limit
put_refused_reads_its_body
put_undo_redo
put_with_the_longest_path
rename_a_named_import
rename_captured_by_a_parameter
rename_captures_type_not_member
rename_field_loses_a_method
rename_gives_import_a_name
rename_loses_a_second_local
rename_makes_declaration_an_assignment
rename_parameter_captures_a_use
rename_refused_for_several_reasons
rename_unexports_a_field
rename_variable_in_short_declaration
uses_in_short_declarations
uses_of_a_declaration_alone
uses_of_a_field_across_packages
work_and_object
work_carried_over_a_put
""".split()
# A few of them that have each kind of change, for checks that take a run of the program at each point.
FEW = """
input_cut_after_a_put_line
move_with_subpackage_and_undo
object_after_rename_and_undo
put_empty_text_at_end
put_refused_reads_its_body
put_undo_redo
rename_gives_import_a_name
work_and_object
""".split()
# Those of them at which a server's workers build.
BUILT = ["move_with_subpackage_and_undo", "put_undo_redo", "rename_gives_import_a_name", "work_and_object"]


def worked(names=WORKED):
    """The worked rows, or some of them, by their names."""
    sessions = stored()
    return {name: sessions[name] for name in names}


def made(name):
    """The random session of a name, which is a kind and a seed, as `renames:7`."""
    kind, _, seed = name.partition(":")
    make, count = KINDS[kind]
    session = make(random.Random(int(seed)), count)
    return session.sent, session.answered


def chosen(names):
    """The sessions with these names, stored or random ones; the worked rows without names; all stored ones with the name `all`, and with the
    name `others` all but the worked rows."""
    if not names:
        return worked()
    sessions = stored()
    if names == ["all"]:
        return sessions
    if names == ["others"]:
        return {name: session for name, session in sessions.items() if name not in WORKED}
    return {name: made(name) if ":" in name else sessions[name] for name in names}
