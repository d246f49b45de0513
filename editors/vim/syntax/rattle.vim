" Syntax of Rattle files (*.rt): Rust with contracts.
if exists("b:current_syntax")
  finish
endif
runtime! syntax/rust.vim
unlet! b:current_syntax

syntax keyword rattleContract requires ensures invariant measure ghost
syntax match rattleOperator "[≡≤≥≠→↔λ×¬∈∷⟦⟧◌ℕℤ∀∃]"

highlight default link rattleContract Statement
highlight default link rattleOperator Operator

let b:current_syntax = "rattle"
