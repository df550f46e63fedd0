;; One contract, which stands at two accounts: `desk` and `vault`.
;; Every function of the host takes and gives numbers of 64 bits. A pair (length, place) names bytes
;; of the memory; with the length -1 it names a register.
(module
  (import "env" "input" (func $input (param i64)))
  (import "env" "register_len" (func $register_len (param i64) (result i64)))
  (import "env" "read_register" (func $read_register (param i64 i64)))
  (import "env" "current_account_id" (func $current_account_id (param i64)))
  (import "env" "log_utf8" (func $log_utf8 (param i64 i64)))
  (import "env" "value_return" (func $value_return (param i64 i64)))
  (import "env" "storage_write" (func $storage_write (param i64 i64 i64 i64 i64) (result i64)))
  (import "env" "promise_create"
    (func $promise_create (param i64 i64 i64 i64 i64 i64 i64 i64) (result i64)))
  (import "env" "promise_then"
    (func $promise_then (param i64 i64 i64 i64 i64 i64 i64 i64 i64) (result i64)))
  (import "env" "promise_result" (func $promise_result (param i64 i64) (result i64)))
  (import "env" "promise_return" (func $promise_return (param i64)))
  (memory 1)
  ;; 0 vault, 5 put, 8 done, 12 asked, 17 stored, 23 text; the zeros from 32 on are the amount 0
  (data (i32.const 0) "vaultputdoneaskedstoredtext")

  ;; at `desk`: sends what it was given to `vault`, and waits for the answer
  (func (export "ask")
    (call $log_utf8 (i64.const 5) (i64.const 12))
    (call $input (i64.const 0))
    (call $current_account_id (i64.const 1))
    (call $promise_return
      (call $promise_then
        (call $promise_create
          (i64.const 5) (i64.const 0)    ;; to `vault`
          (i64.const 3) (i64.const 5)    ;; its method `put`
          (i64.const -1) (i64.const 0)   ;; with what register 0 holds
          (i64.const 32)                 ;; no tokens
          (i64.const 2000))              ;; gas
        (i64.const -1) (i64.const 1)     ;; then to the account in register 1, which is this one
        (i64.const 4) (i64.const 8)      ;; its method `done`
        (i64.const 0) (i64.const 0)      ;; with nothing
        (i64.const 32)
        (i64.const 3000))))

  ;; at `vault`: stores what it was given under `text`, and returns it
  (func (export "put")
    (call $input (i64.const 0))
    (drop
      (call $storage_write
        (i64.const 4) (i64.const 23)
        (i64.const -1) (i64.const 0)
        (i64.const 1)))                  ;; an old value would go to register 1
    (call $log_utf8 (i64.const 6) (i64.const 17))
    (call $value_return (i64.const -1) (i64.const 0)))

  ;; at `desk`: logs and returns what `put` returned
  (func (export "done")
    (if (i64.ne (call $promise_result (i64.const 0) (i64.const 0)) (i64.const 1))
      (then (unreachable)))
    (call $read_register (i64.const 0) (i64.const 64))
    (call $log_utf8 (call $register_len (i64.const 0)) (i64.const 64))
    (call $value_return (i64.const -1) (i64.const 0))))
