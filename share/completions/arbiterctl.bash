# Made from the help of arbiterctl by python/arbiter_pages; a test compares them.

_arbiterctl() {
    local word=${COMP_WORDS[COMP_CWORD]} before=${COMP_WORDS[COMP_CWORD - 1]} given=''
    COMPREPLY=()
    # no reply: bash completes files, and what stands behind < and >
    case $before in *[\<\>]) return ;; esac
    case $word in [\<\>]*) return ;; esac
    # --unit=m is three words here
    if [[ $word == = ]]; then
        given=$before word=''
    elif [[ $before == = ]]; then
        given=${COMP_WORDS[COMP_CWORD - 2]}
    else
        given=$before
    fi
    if ((COMP_CWORD == 1)); then
        mapfile -t COMPREPLY < <(compgen -W "explain diff tune recommend replay top export audit place apply undo hold -h --help -V --version" -- "$word")
        return
    fi
    case ${COMP_WORDS[1]} in
        explain)
            case $given in
                -g|--group) ;;
                -n|--namespace) ;;
                -l|--selector) ;;
                -o|--output) mapfile -t COMPREPLY < <(compgen -W "text json html svg csv" -- "$word") ;;
                --state) mapfile -t COMPREPLY < <(compgen -W "starved throttled hurt asking tasks" -- "$word") ;;
                --sort) mapfile -t COMPREPLY < <(compgen -W "lack gets wants weight name" -- "$word") ;;
                --depth) ;;
                --unit) mapfile -t COMPREPLY < <(compgen -W "cpu m % slices us" -- "$word") ;;
                --rank) mapfile -t COMPREPLY < <(compgen -W "least-loss most-left" -- "$word") ;;
                --workers) ;;
                --dask) ;;
                --from) mapfile -t COMPREPLY < <(compgen -W "script toml json cgroup kubernetes systemd docker slurm" -- "$word") ;;
                --want) mapfile -t COMPREPLY < <(compgen -W "usage peak p95 psi limit request busy" -- "$word") ;;
                --scale) ;;
                --read) ;;
                --used) ;;
                --range) ;;
                --step) ;;
                --query) ;;
                --node) ;;
                --node-weights) mapfile -t COMPREPLY < <(compgen -W "linear log runtime-log" -- "$word") ;;
                --cpus) ;;
                --period) ;;
                --slice) ;;
                --library) ;;
                *)
                    [[ $word == -* ]] && mapfile -t COMPREPLY < <(compgen -W "-g --group -n --namespace -l --selector -o --output --state --sort --depth --unit --all --guaranteed -v --verbose --rank --workers --dask --from --want --scale --read --used --range --step --query --node --node-weights --strict --cpus --period --slice --library -h --help" -- "$word")
                    ;;
            esac
            ;;
        diff)
            case $given in
                -g|--group) ;;
                -n|--namespace) ;;
                -l|--selector) ;;
                -o|--output) mapfile -t COMPREPLY < <(compgen -W "text json html" -- "$word") ;;
                --sort) mapfile -t COMPREPLY < <(compgen -W "change" -- "$word") ;;
                --unit) mapfile -t COMPREPLY < <(compgen -W "cpu m % slices us" -- "$word") ;;
                --set) ;;
                --workers) ;;
                --dask) ;;
                --from) mapfile -t COMPREPLY < <(compgen -W "script toml json cgroup kubernetes systemd docker slurm" -- "$word") ;;
                --want) mapfile -t COMPREPLY < <(compgen -W "usage peak p95 psi limit request busy" -- "$word") ;;
                --scale) ;;
                --read) ;;
                --used) ;;
                --range) ;;
                --step) ;;
                --query) ;;
                --node) ;;
                --node-weights) mapfile -t COMPREPLY < <(compgen -W "linear log runtime-log" -- "$word") ;;
                --cpus) ;;
                --period) ;;
                --slice) ;;
                --library) ;;
                *)
                    [[ $word == -* ]] && mapfile -t COMPREPLY < <(compgen -W "-g --group -n --namespace -l --selector -o --output --sort --unit --all -v --verbose --set --workers --dask --from --want --scale --read --used --range --step --query --node --node-weights --strict --cpus --period --slice --library -h --help" -- "$word")
                    ;;
            esac
            ;;
        tune)
            case $given in
                -g|--group) ;;
                -o|--output) mapfile -t COMPREPLY < <(compgen -W "text json" -- "$word") ;;
                --unit) mapfile -t COMPREPLY < <(compgen -W "cpu m % slices us" -- "$word") ;;
                --set) ;;
                --goal) ;;
                --from) mapfile -t COMPREPLY < <(compgen -W "script toml json cgroup kubernetes systemd docker slurm" -- "$word") ;;
                --want) mapfile -t COMPREPLY < <(compgen -W "usage peak p95 psi limit request busy" -- "$word") ;;
                --scale) ;;
                --read) ;;
                --used) ;;
                --range) ;;
                --step) ;;
                --query) ;;
                --node) ;;
                --node-weights) mapfile -t COMPREPLY < <(compgen -W "linear log runtime-log" -- "$word") ;;
                --cpus) ;;
                --period) ;;
                --slice) ;;
                --library) ;;
                *)
                    [[ $word == -* ]] && mapfile -t COMPREPLY < <(compgen -W "-g --group -o --output --unit --guaranteed -v --verbose --set --goal --from --want --scale --read --used --range --step --query --node --node-weights --strict --cpus --period --slice --library -h --help" -- "$word")
                    ;;
            esac
            ;;
        recommend)
            case $given in
                -g|--group) ;;
                -n|--namespace) ;;
                -l|--selector) ;;
                -o|--output) mapfile -t COMPREPLY < <(compgen -W "text json" -- "$word") ;;
                --unit) mapfile -t COMPREPLY < <(compgen -W "cpu m % slices us" -- "$word") ;;
                --target) ;;
                --headroom) ;;
                --from) mapfile -t COMPREPLY < <(compgen -W "script toml json cgroup kubernetes systemd docker slurm" -- "$word") ;;
                --want) mapfile -t COMPREPLY < <(compgen -W "usage peak p95 psi limit request busy" -- "$word") ;;
                --scale) ;;
                --read) ;;
                --used) ;;
                --range) ;;
                --step) ;;
                --query) ;;
                --map) ;;
                --node) ;;
                --node-weights) mapfile -t COMPREPLY < <(compgen -W "linear log runtime-log" -- "$word") ;;
                --cpus) ;;
                --period) ;;
                --slice) ;;
                --library) ;;
                *)
                    [[ $word == -* ]] && mapfile -t COMPREPLY < <(compgen -W "-g --group -n --namespace -l --selector -o --output --unit -v --verbose --target --headroom --from --want --scale --read --used --range --step --query --map --node --node-weights --strict --cpus --period --slice --library -h --help" -- "$word")
                    ;;
            esac
            ;;
        replay)
            case $given in
                -g|--group) ;;
                -n|--namespace) ;;
                -l|--selector) ;;
                -o|--output) mapfile -t COMPREPLY < <(compgen -W "text json csv html svg" -- "$word") ;;
                --unit) mapfile -t COMPREPLY < <(compgen -W "cpu m % slices us" -- "$word") ;;
                --workers) ;;
                --dask) ;;
                --from) mapfile -t COMPREPLY < <(compgen -W "script toml json cgroup kubernetes systemd docker slurm" -- "$word") ;;
                --want) mapfile -t COMPREPLY < <(compgen -W "usage peak p95 psi limit request busy" -- "$word") ;;
                --scale) ;;
                --read) ;;
                --used) ;;
                --range) ;;
                --step) ;;
                --query) ;;
                --map) ;;
                --node) ;;
                --node-weights) mapfile -t COMPREPLY < <(compgen -W "linear log runtime-log" -- "$word") ;;
                --cpus) ;;
                --period) ;;
                --slice) ;;
                --library) ;;
                *)
                    [[ $word == -* ]] && mapfile -t COMPREPLY < <(compgen -W "-g --group -n --namespace -l --selector -o --output --unit --all -v --verbose --workers --dask --from --want --scale --read --used --range --step --query --map --node --node-weights --strict --cpus --period --slice --library -h --help" -- "$word")
                    ;;
            esac
            ;;
        top)
            case $given in
                -g|--group) ;;
                -n|--namespace) ;;
                -l|--selector) ;;
                -o|--output) mapfile -t COMPREPLY < <(compgen -W "text json openmetrics" -- "$word") ;;
                --state) mapfile -t COMPREPLY < <(compgen -W "starved throttled hurt asking tasks" -- "$word") ;;
                --sort) mapfile -t COMPREPLY < <(compgen -W "lack gets wants weight name" -- "$word") ;;
                --depth) ;;
                --unit) mapfile -t COMPREPLY < <(compgen -W "cpu m % slices us" -- "$word") ;;
                --alert) ;;
                --command) ;;
                --listen) ;;
                --pod|--pods) ;;
                --from) mapfile -t COMPREPLY < <(compgen -W "script toml json cgroup kubernetes systemd docker slurm" -- "$word") ;;
                --want) mapfile -t COMPREPLY < <(compgen -W "usage peak p95 psi limit request busy" -- "$word") ;;
                --scale) ;;
                --read) ;;
                --used) ;;
                --range) ;;
                --step) ;;
                --query) ;;
                --node) ;;
                --node-weights) mapfile -t COMPREPLY < <(compgen -W "linear log runtime-log" -- "$word") ;;
                --cpus) ;;
                --period) ;;
                --slice) ;;
                --library) ;;
                *)
                    [[ $word == -* ]] && mapfile -t COMPREPLY < <(compgen -W "-g --group -n --namespace -l --selector -o --output --state --sort --depth --unit --all -v --verbose --alert --command --listen --pod --pods --from --want --scale --read --used --range --step --query --node --node-weights --strict --cpus --period --slice --library -h --help" -- "$word")
                    ;;
            esac
            ;;
        export)
            case $given in
                -o|--output) mapfile -t COMPREPLY < <(compgen -W "script toml json" -- "$word") ;;
                --set) ;;
                --from) mapfile -t COMPREPLY < <(compgen -W "script toml json cgroup kubernetes systemd docker slurm" -- "$word") ;;
                --want) mapfile -t COMPREPLY < <(compgen -W "usage peak p95 psi limit request busy" -- "$word") ;;
                --scale) ;;
                --read) ;;
                --used) ;;
                --range) ;;
                --step) ;;
                --query) ;;
                --node) ;;
                --node-weights) mapfile -t COMPREPLY < <(compgen -W "linear log runtime-log" -- "$word") ;;
                --cpus) ;;
                --period) ;;
                --slice) ;;
                --library) ;;
                *)
                    [[ $word == -* ]] && mapfile -t COMPREPLY < <(compgen -W "-o --output -v --verbose --set --from --want --scale --read --used --range --step --query --node --node-weights --strict --cpus --period --slice --library -h --help" -- "$word")
                    ;;
            esac
            ;;
        audit)
            case $given in
                -o|--output) mapfile -t COMPREPLY < <(compgen -W "text json html" -- "$word") ;;
                --from) mapfile -t COMPREPLY < <(compgen -W "script toml json cgroup kubernetes systemd docker slurm" -- "$word") ;;
                --want) mapfile -t COMPREPLY < <(compgen -W "usage peak p95 psi limit request busy" -- "$word") ;;
                --read) ;;
                --used) ;;
                --range) ;;
                --step) ;;
                --query) ;;
                --node) ;;
                --node-weights) mapfile -t COMPREPLY < <(compgen -W "linear log runtime-log" -- "$word") ;;
                --cpus) ;;
                --period) ;;
                --slice) ;;
                --library) ;;
                *)
                    [[ $word == -* ]] && mapfile -t COMPREPLY < <(compgen -W "-o --output -v --verbose --from --want --read --used --range --step --query --node --node-weights --strict --cpus --period --slice --library -h --help" -- "$word")
                    ;;
            esac
            ;;
        place)
            case $given in
                -o|--output) mapfile -t COMPREPLY < <(compgen -W "text json html" -- "$word") ;;
                --pod|--pods) ;;
                --rank) mapfile -t COMPREPLY < <(compgen -W "least-loss most-left" -- "$word") ;;
                --workers) ;;
                --dask) ;;
                --from) mapfile -t COMPREPLY < <(compgen -W "script toml json cgroup kubernetes systemd docker slurm" -- "$word") ;;
                --want) mapfile -t COMPREPLY < <(compgen -W "usage peak p95 psi limit request busy" -- "$word") ;;
                --scale) ;;
                --read) ;;
                --used) ;;
                --range) ;;
                --step) ;;
                --query) ;;
                --node) ;;
                --node-weights) mapfile -t COMPREPLY < <(compgen -W "linear log runtime-log" -- "$word") ;;
                --cpus) ;;
                --period) ;;
                --slice) ;;
                --library) ;;
                *)
                    [[ $word == -* ]] && mapfile -t COMPREPLY < <(compgen -W "-o --output --all -v --verbose --pod --pods --rank --workers --dask --from --want --scale --read --used --range --step --query --node --node-weights --strict --cpus --period --slice --library -h --help" -- "$word")
                    ;;
            esac
            ;;
        apply)
            case $given in
                -o|--output) mapfile -t COMPREPLY < <(compgen -W "text kubectl dropin compose slurm" -- "$word") ;;
                --set) ;;
                --root) ;;
                --by) mapfile -t COMPREPLY < <(compgen -W "systemd persistent files" -- "$word") ;;
                --undo) ;;
                --from) mapfile -t COMPREPLY < <(compgen -W "script toml json cgroup kubernetes systemd docker slurm" -- "$word") ;;
                --node) ;;
                --node-weights) mapfile -t COMPREPLY < <(compgen -W "linear log runtime-log" -- "$word") ;;
                --cpus) ;;
                --library) ;;
                *)
                    [[ $word == -* ]] && mapfile -t COMPREPLY < <(compgen -W "-o --output -v --verbose --set --yes --root --by --undo --from --node --node-weights --strict --cpus --library -h --help" -- "$word")
                    ;;
            esac
            ;;
        undo)
            case $given in
                *)
                    [[ $word == -* ]] && mapfile -t COMPREPLY < <(compgen -W "-v --verbose --yes --force -h --help" -- "$word")
                    ;;
            esac
            ;;
        hold)
            case $given in
                -o|--output) mapfile -t COMPREPLY < <(compgen -W "json openmetrics" -- "$word") ;;
                --depth) ;;
                --root) ;;
                --by) mapfile -t COMPREPLY < <(compgen -W "limits scheduler" -- "$word") ;;
                --undo) ;;
                --read) ;;
                --cpus) ;;
                --period) ;;
                --slice) ;;
                --library) ;;
                *)
                    [[ $word == -* ]] && mapfile -t COMPREPLY < <(compgen -W "-o --output --depth -v --verbose --yes --root --by --undo --force --weights --once --read --cpus --period --slice --library -h --help" -- "$word")
                    ;;
            esac
            ;;
    esac
}

complete -o bashdefault -o default -o nosort -F _arbiterctl arbiterctl
