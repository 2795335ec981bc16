{module, restarts}.  %% version = 0

{exports, [{main,0},{module_info,0},{module_info,1},{supervise,2},{worker,0}]}.

{attributes, []}.

{labels, 28}.


{function, main, 0, 2}.
  {label,1}.
    {line,[{location,"restarts.erl",5}]}.
    {func_info,{atom,restarts},{atom,main},0}.
  {label,2}.
    {allocate_heap,1,2,0}.
    {init_yregs,{list,[{y,0}]}}.
    {bif,self,{f,0},[],{x,0}}.
    {put_list,{x,0},{literal,[3]},{x,2}}.
    {move,{atom,supervise},{x,1}}.
    {move,{atom,restarts},{x,0}}.
    {line,[{location,"restarts.erl",6}]}.
    {call_ext,3,{extfunc,erlang,spawn,3}}.
    {move,{x,0},{y,0}}.
    {move,{literal,[1,0,2,0,0,3]},{x,1}}.
    {line,[{location,"restarts.erl",7}]}.
    {call,2,{f,7}}. % feed/2
    {'%',{var_info,{x,0},[{type,{t_atom,[ok]}}]}}.
  {label,3}.
    {loop_rec,{f,5},{x,0}}.
    {test,is_tuple,{f,4},[{x,0}]}.
    {test,test_arity,{f,4},[{x,0},2]}.
    {get_tuple_element,{x,0},0,{x,1}}.
    {test,is_eq_exact,{f,4},[{x,1},{tr,{y,0},pid}]}.
    remove_message.
    {get_tuple_element,{x,0},1,{x,0}}.
    {line,[{location,"restarts.erl",8}]}.
    {call_ext_last,1,{extfunc,erlang,display,1},1}.
  {label,4}.
    {loop_rec_end,{f,3}}.
  {label,5}.
    {wait,{f,3}}.


{function, feed, 2, 7}.
  {label,6}.
    {line,[{location,"restarts.erl",10}]}.
    {func_info,{atom,restarts},{atom,feed},2}.
  {label,7}.
    {'%',{var_info,{x,0},[{type,pid}]}}.
    {'%',{var_info,{x,1},[{type,{t_list,{t_integer,{0,3}},nil}}]}}.
    {test,is_nonempty_list,{f,8},[{x,1}]}.
    {allocate_heap,2,3,2}.
    {move,{x,0},{y,1}}.
    {get_list,{x,1},{x,0},{y,0}}.
    {put_tuple2,{x,1},{list,[{atom,job},{x,0}]}}.
    {move,{y,1},{x,0}}.
    {line,[{location,"restarts.erl",11}]}.
    send.
    {move,{y,0},{x,1}}.
    {move,{y,1},{x,0}}.
    {call_last,2,{f,7},2}. % feed/2
  {label,8}.
    {move,{atom,ok},{x,0}}.
    return.


{function, supervise, 2, 10}.
  {label,9}.
    {line,[{location,"restarts.erl",13}]}.
    {func_info,{atom,restarts},{atom,supervise},2}.
  {label,10}.
    {allocate,2,2}.
    {move,{x,1},{y,0}}.
    {move,{x,0},{y,1}}.
    {move,{atom,true},{x,1}}.
    {move,{atom,trap_exit},{x,0}}.
    {line,[{location,"restarts.erl",14}]}.
    {call_ext,2,{extfunc,erlang,process_flag,2}}.
    {move,{atom,worker},{x,1}}.
    {move,nil,{x,2}}.
    {move,{atom,restarts},{x,0}}.
    {line,[{location,"restarts.erl",15}]}.
    {call_ext,3,{extfunc,erlang,spawn_link,3}}.
    {move,{x,0},{x,1}}.
    {move,{y,0},{x,2}}.
    {move,{y,1},{x,0}}.
    {call_last,3,{f,12},2}. % serve/3


{function, serve, 3, 12}.
  {label,11}.
    {line,[{location,"restarts.erl",17}]}.
    {func_info,{atom,restarts},{atom,serve},3}.
  {label,12}.
    {'%',{var_info,{x,1},[{type,pid}]}}.
    {test,is_eq_exact,{f,13},[{x,2},{integer,0}]}.
    {allocate_heap,0,3,1}.
    {bif,self,{f,0},[],{x,1}}.
    {put_tuple2,{x,1},{list,[{x,1},{atom,gave_up}]}}.
    send.
    {deallocate,0}.
    return.
  {label,13}.
    {allocate,3,3}.
    {move,{x,2},{y,0}}.
    {move,{x,1},{y,1}}.
    {move,{x,0},{y,2}}.
  {label,14}.
    {loop_rec,{f,18},{x,0}}.
    {test,is_tuple,{f,17},[{x,0}]}.
    {select_tuple_arity,{tr,{x,0},{t_tuple,0,false,#{}}},
                        {f,17},
                        {list,[2,{f,16},3,{f,15}]}}.
  {label,15}.
    {get_tuple_element,{x,0},0,{x,1}}.
    {get_tuple_element,{x,0},1,{x,2}}.
    {test,is_eq_exact,{f,17},[{x,1},{atom,'EXIT'}]}.
    {test,is_eq_exact,{f,17},[{x,2},{tr,{y,1},pid}]}.
    remove_message.
    {get_tuple_element,{x,0},2,{x,0}}.
    {move,{y,0},{y,1}}.
    {trim,1,2}.
    {line,[{location,"restarts.erl",21}]}.
    {call_ext,1,{extfunc,erlang,display,1}}.
    {move,{atom,worker},{x,1}}.
    {move,nil,{x,2}}.
    {move,{atom,restarts},{x,0}}.
    {call_ext,3,{extfunc,erlang,spawn_link,3}}.
    {gc_bif,'-',{f,0},1,[{y,0},{integer,1}],{x,2}}.
    {move,{x,0},{x,1}}.
    {move,{y,1},{x,0}}.
    {call_last,3,{f,12},2}. % serve/3
  {label,16}.
    {get_tuple_element,{x,0},0,{x,1}}.
    {test,is_eq_exact,{f,17},[{x,1},{atom,job}]}.
    {test_heap,3,1}.
    {get_tuple_element,{x,0},1,{x,0}}.
    remove_message.
    {put_tuple2,{x,1},{list,[{atom,divide},{x,0}]}}.
    {move,{y,1},{x,0}}.
    {line,[{location,"restarts.erl",20}]}.
    send.
    {move,{y,0},{x,2}}.
    {move,{y,1},{x,1}}.
    {move,{y,2},{x,0}}.
    {call_last,3,{f,12},3}. % serve/3
  {label,17}.
    {loop_rec_end,{f,14}}.
  {label,18}.
    {wait,{f,14}}.


{function, worker, 0, 20}.
  {label,19}.
    {line,[{location,"restarts.erl",24}]}.
    {func_info,{atom,restarts},{atom,worker},0}.
  {label,20}.
    {allocate,0,0}.
  {label,21}.
    {loop_rec,{f,23},{x,0}}.
    {test,is_tagged_tuple,{f,22},[{x,0},2,{atom,divide}]}.
    {get_tuple_element,{x,0},1,{x,0}}.
    remove_message.
    {gc_bif,'div',{f,0},1,[{integer,12},{x,0}],{x,0}}.
    {call_ext,1,{extfunc,erlang,display,1}}.
    {call_last,0,{f,20},0}. % worker/0
  {label,22}.
    {loop_rec_end,{f,21}}.
  {label,23}.
    {wait,{f,21}}.


{function, module_info, 0, 25}.
  {label,24}.
    {line,[]}.
    {func_info,{atom,restarts},{atom,module_info},0}.
  {label,25}.
    {move,{atom,restarts},{x,0}}.
    {call_ext_only,1,{extfunc,erlang,get_module_info,1}}.


{function, module_info, 1, 27}.
  {label,26}.
    {line,[]}.
    {func_info,{atom,restarts},{atom,module_info},1}.
  {label,27}.
    {move,{x,0},{x,1}}.
    {move,{atom,restarts},{x,0}}.
    {call_ext_only,2,{extfunc,erlang,get_module_info,2}}.
