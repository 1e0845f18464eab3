" Instruction text of fdbtester, made by scripts/made.
if exists("b:current_syntax")
  finish
endif
syntax case match
syntax match fdbtComment "^\s*#.*$"
syntax match fdbtPrefix "^@ .*$"
syntax keyword fdbtOperation ATOMIC_OP
syntax keyword fdbtOperation ATOMIC_OP_DATABASE
syntax keyword fdbtOperation CANCEL
syntax keyword fdbtOperation CLEAR
syntax keyword fdbtOperation CLEAR_DATABASE
syntax keyword fdbtOperation CLEAR_RANGE
syntax keyword fdbtOperation CLEAR_RANGE_DATABASE
syntax keyword fdbtOperation CLEAR_RANGE_STARTS_WITH
syntax keyword fdbtOperation CLEAR_RANGE_STARTS_WITH_DATABASE
syntax keyword fdbtOperation COMMIT
syntax keyword fdbtOperation CONCAT
syntax keyword fdbtOperation DIRECTORY_CHANGE
syntax keyword fdbtOperation DIRECTORY_CONTAINS
syntax keyword fdbtOperation DIRECTORY_CREATE
syntax keyword fdbtOperation DIRECTORY_CREATE_DATABASE
syntax keyword fdbtOperation DIRECTORY_CREATE_LAYER
syntax keyword fdbtOperation DIRECTORY_CREATE_OR_OPEN
syntax keyword fdbtOperation DIRECTORY_CREATE_OR_OPEN_DATABASE
syntax keyword fdbtOperation DIRECTORY_CREATE_SUBSPACE
syntax keyword fdbtOperation DIRECTORY_EXISTS
syntax keyword fdbtOperation DIRECTORY_EXISTS_DATABASE
syntax keyword fdbtOperation DIRECTORY_EXISTS_SNAPSHOT
syntax keyword fdbtOperation DIRECTORY_LIST
syntax keyword fdbtOperation DIRECTORY_LIST_DATABASE
syntax keyword fdbtOperation DIRECTORY_LIST_SNAPSHOT
syntax keyword fdbtOperation DIRECTORY_LOG_DIRECTORY
syntax keyword fdbtOperation DIRECTORY_LOG_SUBSPACE
syntax keyword fdbtOperation DIRECTORY_MOVE
syntax keyword fdbtOperation DIRECTORY_MOVE_DATABASE
syntax keyword fdbtOperation DIRECTORY_MOVE_TO
syntax keyword fdbtOperation DIRECTORY_MOVE_TO_DATABASE
syntax keyword fdbtOperation DIRECTORY_OPEN
syntax keyword fdbtOperation DIRECTORY_OPEN_DATABASE
syntax keyword fdbtOperation DIRECTORY_OPEN_SNAPSHOT
syntax keyword fdbtOperation DIRECTORY_OPEN_SUBSPACE
syntax keyword fdbtOperation DIRECTORY_PACK_KEY
syntax keyword fdbtOperation DIRECTORY_RANGE
syntax keyword fdbtOperation DIRECTORY_REMOVE
syntax keyword fdbtOperation DIRECTORY_REMOVE_DATABASE
syntax keyword fdbtOperation DIRECTORY_REMOVE_IF_EXISTS
syntax keyword fdbtOperation DIRECTORY_REMOVE_IF_EXISTS_DATABASE
syntax keyword fdbtOperation DIRECTORY_SET_ERROR_INDEX
syntax keyword fdbtOperation DIRECTORY_STRIP_PREFIX
syntax keyword fdbtOperation DIRECTORY_UNPACK_KEY
syntax keyword fdbtOperation DISABLE_WRITE_CONFLICT
syntax keyword fdbtOperation DUP
syntax keyword fdbtOperation EMPTY_STACK
syntax keyword fdbtOperation GET
syntax keyword fdbtOperation GET_APPROXIMATE_SIZE
syntax keyword fdbtOperation GET_COMMITTED_VERSION
syntax keyword fdbtOperation GET_DATABASE
syntax keyword fdbtOperation GET_ESTIMATED_RANGE_SIZE
syntax keyword fdbtOperation GET_KEY
syntax keyword fdbtOperation GET_KEY_DATABASE
syntax keyword fdbtOperation GET_KEY_SNAPSHOT
syntax keyword fdbtOperation GET_RANGE
syntax keyword fdbtOperation GET_RANGE_DATABASE
syntax keyword fdbtOperation GET_RANGE_SELECTOR
syntax keyword fdbtOperation GET_RANGE_SELECTOR_DATABASE
syntax keyword fdbtOperation GET_RANGE_SELECTOR_SNAPSHOT
syntax keyword fdbtOperation GET_RANGE_SNAPSHOT
syntax keyword fdbtOperation GET_RANGE_STARTS_WITH
syntax keyword fdbtOperation GET_RANGE_STARTS_WITH_DATABASE
syntax keyword fdbtOperation GET_RANGE_STARTS_WITH_SNAPSHOT
syntax keyword fdbtOperation GET_READ_VERSION
syntax keyword fdbtOperation GET_READ_VERSION_SNAPSHOT
syntax keyword fdbtOperation GET_SNAPSHOT
syntax keyword fdbtOperation GET_VERSIONSTAMP
syntax keyword fdbtOperation LOG_STACK
syntax keyword fdbtOperation NEW_TRANSACTION
syntax keyword fdbtOperation ON_ERROR
syntax keyword fdbtOperation POP
syntax keyword fdbtOperation PUSH
syntax keyword fdbtOperation READ_CONFLICT_KEY
syntax keyword fdbtOperation READ_CONFLICT_RANGE
syntax keyword fdbtOperation RESET
syntax keyword fdbtOperation SET
syntax keyword fdbtOperation SET_DATABASE
syntax keyword fdbtOperation SET_READ_VERSION
syntax keyword fdbtOperation START_THREAD
syntax keyword fdbtOperation SUB
syntax keyword fdbtOperation SWAP
syntax keyword fdbtOperation TUPLE_PACK
syntax keyword fdbtOperation TUPLE_PACK_WITH_VERSIONSTAMP
syntax keyword fdbtOperation TUPLE_RANGE
syntax keyword fdbtOperation TUPLE_SORT
syntax keyword fdbtOperation TUPLE_UNPACK
syntax keyword fdbtOperation UNIT_TESTS
syntax keyword fdbtOperation USE_TRANSACTION
syntax keyword fdbtOperation WAIT_EMPTY
syntax keyword fdbtOperation WAIT_FUTURE
syntax keyword fdbtOperation WRITE_CONFLICT_KEY
syntax keyword fdbtOperation WRITE_CONFLICT_RANGE
syntax keyword fdbtConstant null true false
syntax match fdbtNumber "-\?\<\(0\|[1-9]\d*\)\>"
syntax match fdbtNumber "\<uuid:[0-9a-f]\{32\}\>"
syntax match fdbtNumber "\<stamp:[0-9a-f]\{20\}\.\d\+"
syntax region fdbtString start=+\<[bu]'+ end=+'+ oneline contains=fdbtEscape
syntax match fdbtEscape "\\\\\|\\x[0-9a-f]\{2\}" contained
highlight default link fdbtComment Comment
highlight default link fdbtPrefix Title
highlight default link fdbtOperation Statement
highlight default link fdbtConstant Constant
highlight default link fdbtNumber Number
highlight default link fdbtString String
highlight default link fdbtEscape SpecialChar
let b:current_syntax = "fdbt"
