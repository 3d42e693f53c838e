"""Checks the language server of a built program by sessions of an editor: python3 -m checks.editors.cases [WORD..] PROGRAM

The words, if any, are those of a command that runs the program. The answers are those of the specification of the language server protocol,
version 3.17, and of JSON-RPC 2.0; texts behind renames and moves, uses and faults are the model's.
"""

from checks.editors import changes, documents, messages
from checks.server.server import check_program

CHECKS = (
    messages.capabilities,
    messages.utf8_where_listed,
    messages.named_server,
    messages.before_initialize,
    messages.initialized_twice,
    messages.exit_alone,
    messages.exit_first,
    messages.input_ends,
    messages.after_shutdown,
    messages.ends_by_exit,
    messages.unknown_methods,
    messages.cancelled,
    messages.no_json,
    messages.no_calls,
    messages.wrong_calls_with_ids,
    messages.wrong_ids,
    messages.legal_ids,
    messages.null_params,
    messages.answers_of_the_client,
    messages.headers_as_http_has_them,
    messages.headers_without_length,
    messages.in_pieces,
    messages.in_order,
    messages.wrong_params,
    documents.open_text_counts,
    documents.changed_as_a_whole,
    documents.changed_in_parts,
    documents.utf16_columns,
    documents.utf8_columns,
    documents.inside_a_character,
    documents.past_the_ends,
    documents.lines_with_returns,
    documents.closed_again,
    documents.new_file,
    documents.strangers,
    documents.escaped_uris,
    documents.folders_with_blanks,
    documents.published,
    documents.published_elsewhere,
    documents.published_and_closed,
    documents.published_version,
    changes.renames,
    changes.renames_each_identifier,
    changes.versions_of_edits,
    changes.edits_without_versions,
    changes.edits_are_small,
    changes.renamed_and_on,
    changes.not_applied,
    changes.refusals,
    changes.other_refusals,
    changes.faulty_packages,
    changes.prepared,
    changes.not_prepared,
    changes.references,
    changes.no_references,
    changes.definitions,
    changes.highlights,
    changes.moves,
    changes.moves_of_nothing,
    changes.undone,
    changes.undone_in_order,
    changes.typed_behind_a_rename,
    changes.saved_behind_a_rename,
    changes.nothing_to_undo,
    changes.no_redo_after_a_change,
    changes.watched,
    changes.writes_nothing,
    changes.without_a_module,
    changes.progress,
)


def main():
    check_program(CHECKS, __doc__)


if __name__ == "__main__":
    main()
