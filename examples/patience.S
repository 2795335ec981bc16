{module, patience}.  %% version = 0

{exports, [{answer,1},{main,0},{module_info,0},{module_info,1}]}.

{attributes, []}.

{labels, 12}.


{function, main, 0, 2}.
  {label,1}.
    {line,[{location,"patience.erl",5}]}.
    {func_info,{atom,patience},{atom,main},0}.
  {label,2}.
    {allocate_heap,0,2,0}.
    {bif,self,{f,0},[],{x,0}}.
    {put_list,{x,0},nil,{x,2}}.
    {move,{atom,answer},{x,1}}.
    {move,{atom,patience},{x,0}}.
    {line,[{location,"patience.erl",6}]}.
    {call_ext,3,{extfunc,erlang,spawn,3}}.
  {label,3}.
    {loop_rec,{f,5},{x,0}}.
    {test,is_tagged_tuple,{f,4},[{x,0},2,{atom,answer}]}.
    remove_message.
    {get_tuple_element,{x,0},1,{x,0}}.
    {line,[{location,"patience.erl",8}]}.
    {call_ext_last,1,{extfunc,erlang,display,1},0}.
  {label,4}.
    {loop_rec_end,{f,3}}.
  {label,5}.
    {wait_timeout,{f,3},{integer,100}}.
    timeout.
    {move,{atom,too_late},{x,0}}.
    {line,[{location,"patience.erl",10}]}.
    {call_ext_last,1,{extfunc,erlang,display,1},0}.


{function, answer, 1, 7}.
  {label,6}.
    {line,[{location,"patience.erl",13}]}.
    {func_info,{atom,patience},{atom,answer},1}.
  {label,7}.
    {allocate,0,1}.
    {move,{literal,{answer,42}},{x,1}}.
    {line,[{location,"patience.erl",14}]}.
    send.
    {deallocate,0}.
    return.


{function, module_info, 0, 9}.
  {label,8}.
    {line,[]}.
    {func_info,{atom,patience},{atom,module_info},0}.
  {label,9}.
    {move,{atom,patience},{x,0}}.
    {call_ext_only,1,{extfunc,erlang,get_module_info,1}}.


{function, module_info, 1, 11}.
  {label,10}.
    {line,[]}.
    {func_info,{atom,patience},{atom,module_info},1}.
  {label,11}.
    {move,{x,0},{x,1}}.
    {move,{atom,patience},{x,0}}.
    {call_ext_only,2,{extfunc,erlang,get_module_info,2}}.
