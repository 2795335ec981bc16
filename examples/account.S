{module, account}.  %% version = 0

{exports, [{keep,1},{main,0},{module_info,0},{module_info,1},{pay,3}]}.

{attributes, []}.

{labels, 28}.


{function, main, 0, 2}.
  {label,1}.
    {line,[{location,"account.erl",5}]}.
    {func_info,{atom,account},{atom,main},0}.
  {label,2}.
    {allocate,1,0}.
    {init_yregs,{list,[{y,0}]}}.
    {move,{atom,keep},{x,1}}.
    {move,{literal,"d"},{x,2}}.
    {move,{atom,account},{x,0}}.
    {line,[{location,"account.erl",6}]}.
    {call_ext,3,{extfunc,erlang,spawn,3}}.
    {test_heap,6,1}.
    {bif,self,{f,0},[],{x,1}}.
    {put_list,{x,1},nil,{x,1}}.
    {put_list,{integer,10},{x,1},{x,1}}.
    {put_list,{x,0},{x,1},{x,2}}.
    {move,{x,0},{y,0}}.
    {move,{atom,pay},{x,1}}.
    {move,{atom,account},{x,0}}.
    {line,[{location,"account.erl",7}]}.
    {call_ext,3,{extfunc,erlang,spawn,3}}.
    {test_heap,6,0}.
    {bif,self,{f,0},[],{x,0}}.
    {put_list,{x,0},nil,{x,0}}.
    {put_list,{integer,5},{x,0},{x,0}}.
    {put_list,{y,0},{x,0},{x,2}}.
    {move,{atom,pay},{x,1}}.
    {move,{atom,account},{x,0}}.
    {line,[{location,"account.erl",8}]}.
    {call_ext,3,{extfunc,erlang,spawn,3}}.
  {label,3}.
    {loop_rec,{f,11},{x,0}}.
    {test,is_eq_exact,{f,10},[{x,0},{atom,paid}]}.
    remove_message.
  {label,4}.
    {loop_rec,{f,9},{x,0}}.
    {test,is_eq_exact,{f,8},[{x,0},{atom,paid}]}.
    {test_heap,3,0}.
    remove_message.
    {bif,self,{f,0},[],{x,0}}.
    {put_tuple2,{x,1},{list,[{atom,read},{x,0}]}}.
    {move,{y,0},{x,0}}.
    {init_yregs,{list,[{y,0}]}}.
    {line,[{location,"account.erl",11}]}.
    send.
  {label,5}.
    {loop_rec,{f,7},{x,0}}.
    {test,is_tagged_tuple,{f,6},[{x,0},2,{atom,balance}]}.
    remove_message.
    {get_tuple_element,{x,0},1,{x,0}}.
    {line,[{location,"account.erl",12}]}.
    {call_ext_last,1,{extfunc,erlang,display,1},1}.
  {label,6}.
    {loop_rec_end,{f,5}}.
  {label,7}.
    {wait,{f,5}}.
  {label,8}.
    {loop_rec_end,{f,4}}.
  {label,9}.
    {wait,{f,4}}.
  {label,10}.
    {loop_rec_end,{f,3}}.
  {label,11}.
    {wait,{f,3}}.


{function, keep, 1, 13}.
  {label,12}.
    {line,[{location,"account.erl",14}]}.
    {func_info,{atom,account},{atom,keep},1}.
  {label,13}.
    {allocate,1,1}.
    {move,{x,0},{y,0}}.
  {label,14}.
    {loop_rec,{f,18},{x,0}}.
    {test,is_tuple,{f,17},[{x,0}]}.
    {test,test_arity,{f,17},[{x,0},2]}.
    {get_tuple_element,{x,0},0,{x,1}}.
    {get_tuple_element,{x,0},1,{x,0}}.
    {select_val,{x,1},{f,17},{list,[{atom,read},{f,16},{atom,write},{f,15}]}}.
  {label,15}.
    remove_message.
    {call_last,1,{f,13},1}. % keep/1
  {label,16}.
    {test_heap,3,1}.
    remove_message.
    {put_tuple2,{x,1},{list,[{atom,balance},{y,0}]}}.
    {line,[{location,"account.erl",16}]}.
    send.
    {move,{y,0},{x,0}}.
    {call_last,1,{f,13},1}. % keep/1
  {label,17}.
    {loop_rec_end,{f,14}}.
  {label,18}.
    {wait,{f,14}}.


{function, pay, 3, 20}.
  {label,19}.
    {line,[{location,"account.erl",20}]}.
    {func_info,{atom,account},{atom,pay},3}.
  {label,20}.
    {allocate_heap,3,3,3}.
    {move,{x,2},{y,0}}.
    {move,{x,1},{y,1}}.
    {move,{x,0},{y,2}}.
    {bif,self,{f,0},[],{x,0}}.
    {put_tuple2,{x,1},{list,[{atom,read},{x,0}]}}.
    {move,{y,2},{x,0}}.
    {line,[{location,"account.erl",21}]}.
    send.
  {label,21}.
    {loop_rec,{f,23},{x,0}}.
    {test,is_tagged_tuple,{f,22},[{x,0},2,{atom,balance}]}.
    {get_tuple_element,{x,0},1,{x,0}}.
    remove_message.
    {line,[{location,"account.erl",22}]}.
    {gc_bif,'+',{f,0},1,[{x,0},{y,1}],{x,0}}.
    {test_heap,3,1}.
    {put_tuple2,{x,1},{list,[{atom,write},{x,0}]}}.
    {move,{y,2},{x,0}}.
    {move,{y,0},{y,2}}.
    {trim,2,1}.
    send.
    {move,{atom,paid},{x,1}}.
    {move,{y,0},{x,0}}.
    {line,[{location,"account.erl",23}]}.
    send.
    {deallocate,1}.
    return.
  {label,22}.
    {loop_rec_end,{f,21}}.
  {label,23}.
    {wait,{f,21}}.


{function, module_info, 0, 25}.
  {label,24}.
    {line,[]}.
    {func_info,{atom,account},{atom,module_info},0}.
  {label,25}.
    {move,{atom,account},{x,0}}.
    {call_ext_only,1,{extfunc,erlang,get_module_info,1}}.


{function, module_info, 1, 27}.
  {label,26}.
    {line,[]}.
    {func_info,{atom,account},{atom,module_info},1}.
  {label,27}.
    {move,{x,0},{x,1}}.
    {move,{atom,account},{x,0}}.
    {call_ext_only,2,{extfunc,erlang,get_module_info,2}}.
