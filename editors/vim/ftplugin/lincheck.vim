" Indentation and comments as in Lisp: a line in a list is indented by 2 more than its bracket.
setlocal lisp expandtab shiftwidth=2 commentstring=;\ %s comments=:;
setlocal lispwords=spec,op,branch,choice,object,action,invariant,idle,body,point,assert,on,formula,hyps,proof
setlocal lispwords+=certificate,hints,plan,phase,split,cases,push,fresh,trich,inst,cut,written,same,divide,by
